//! What the doc tests do not show.

use foqheran::{Answer, Duty, Pool, Refusal, Row, Step, INDEX_COUNT, INDEX_PAGES};

fn sendable<T: Send>(value: T) -> T {
    value
}

#[test]
fn a_pool_can_be_sent() {
    let mut pool = sendable(Pool::new(1, 1, 3, 0).unwrap());
    let sent = std::thread::spawn(move || pool.request(0, 9).map(|_| pool.holdings(0)));
    assert_eq!(sent.join().unwrap(), Ok(Ok(vec![Row { page: 9, times: 1 }])));
}

#[test]
fn a_pool_is_a_few_words() {
    assert!(std::mem::size_of::<Pool>() <= 64);
}

#[test]
fn refusals_have_their_numbers() {
    let mut pool = Pool::with_store(8, 1, 3, 0, vec![0; 9 * 64]).unwrap();
    assert_eq!(pool.begin(1, 0), Err(Refusal::NoSuchClient));
    assert_eq!(pool.step(0), Err(Refusal::AtRest));
    assert_eq!(pool.begin(0, 9), Err(Refusal::OutsideStore));
    assert_eq!(pool.write(0, 1, 0, 1), Err(Refusal::NotHeld));
    for page in 0..8 {
        pool.request(0, page).unwrap();
        assert_eq!(pool.begin(0, 0), Err(if page < 7 { Refusal::HeldAlready } else { Refusal::HasEight }));
    }
    assert_eq!(pool.request(0, 8), Err(Refusal::HasEight));
    assert_eq!(pool.read(0, 1, 64), Err(Refusal::OutsidePage));
    assert_eq!(pool.holdings_into(0, &mut []), Err(Refusal::FewRows));
    assert_eq!(Refusal::AtRest.to_string(), "refused by 11: the client is at rest");
    assert_eq!(Refusal::HeldAlready.to_string(), "refused by 18: the client holds this page already");
    assert_eq!(Refusal::Other(7).to_string(), "an answer with the unknown code 7");
}

#[test]
fn rows_that_are_not_listed_stay() {
    let mut pool = Pool::new(2, 1, 3, 0).unwrap();
    pool.request(0, 7).unwrap();
    let unused = Row { page: 77, times: 77 };
    let mut rows = [unused; 20];
    assert_eq!(pool.holdings_into(0, &mut rows), Ok(1));
    assert_eq!(rows[0], Row { page: 7, times: 1 });
    assert!(rows[1..].iter().all(|row| *row == unused));
}

#[test]
fn a_page_that_is_evicted_and_revived_is_moved_and_not_dropped() {
    // two slots have pages 9 and 5; client 0 wants 7 and has evicted 9 when client 1 asks for 9 again
    let mut pool = Pool::new(2, 2, 3, 0).unwrap();
    let first = pool.request(0, 9).unwrap();
    pool.release(0, 9).unwrap();
    pool.request(0, 5).unwrap();
    pool.release(0, 5).unwrap();
    pool.begin(0, 7).unwrap();
    while pool.step(0).unwrap().answer != Answer::Working(17) {}
    assert_eq!((pool.tally().admitted, pool.tally().drops), (2, 0));
    let mut duties = Vec::new();
    let second = pool.request_with(1, 9, |duty| duties.push(duty)).unwrap();
    assert_eq!(duties[1..], [Duty::Move { frame: first, target: second }]);
    assert!(matches!(duties[0], Duty::WriteBack { page: 5, .. }));
    // what is no longer page 9's frame is not to be written back
    assert_eq!(pool.step(0), Ok(Step { answer: Answer::Working(18), duty: None }));
    // of the two pages that were evicted, only 5 has left
    let tally = pool.tally();
    assert_eq!((tally.admitted, tally.revived, tally.drops), (2, 1, 1));
    assert_eq!(pool.check(), Ok(()));
}

#[test]
fn index_pages_stay_longer() {
    for cap in [1, 2, 3, 100] {
        for page in [0, INDEX_PAGES - 1, INDEX_PAGES] {
            let mut pool = Pool::new(1, 1, cap, 0).unwrap();
            pool.request(0, page).unwrap();
            pool.release(0, page).unwrap();
            pool.begin(0, 9).unwrap();
            let mut steps = 1;
            while !matches!(pool.step(0).unwrap().answer, Answer::Granted(_)) {
                steps += 1;
            }
            // each visit of the sweep has three steps; the request has nine others
            let visits = if page < INDEX_PAGES { INDEX_COUNT.min(cap) } else { 1 };
            assert_eq!(steps, 9 + 3 * i32::from(visits), "page {page}, cap {cap}");
        }
    }
}

#[test]
fn the_store_comes_back_whole() {
    let mut pool = Pool::with_store(2, 3, 3, 0, vec![0; 5 * 64]).unwrap();
    for page in 0..5 {
        pool.request(0, page).unwrap();
        pool.write(0, page, page, page as u8 + 1).unwrap();
        pool.release(0, page).unwrap();
    }
    // clients that hold pages or are at work do not matter
    pool.request(1, 4).unwrap();
    pool.begin(2, 3).unwrap();
    pool.step(2).unwrap();
    let bytes = pool.into_store();
    for page in 0..5 {
        assert_eq!(bytes[64 * page + page], page as u8 + 1);
    }
    assert_eq!(bytes.iter().filter(|byte| **byte != 0).count(), 5);
}
