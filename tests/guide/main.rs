// Calls the functions of docs/SERVER.md.

fn main() -> Result<(), Refusal> {
    let shared = set_up(vec![0; 40 * 64])?;
    let first = fetch(&shared, 0, 12)?;
    assert_eq!(fetch(&shared, 1, 12), Ok(first));
    tick(&shared, 0, 12, 5)?;
    tick(&shared, 1, 12, 5)?;
    let saved = save(&shared, 3)?;
    assert_eq!((saved[12 * 64 + 5], saved[12 * 64 + 6]), (2, 0));
    assert_eq!(end(shared), saved);

    // more pages than slots, each changed in its buffer: two of them have to be written back
    let pool = Mutex::new(Pool::new(8, 4, 1, 0)?);
    let frames = pool.lock().unwrap().frames();
    let buffers: Vec<_> =
        (0..frames).map(|_| Mutex::new(Buffer { bytes: vec![0; 4096], loaded: false, dirty: false })).collect();
    let written = Mutex::new(Vec::new());
    for page in 0..10 {
        pool.lock().unwrap().begin(0, page)?;
        let write_page = |page, bytes: &[u8]| written.lock().unwrap().push((page, bytes[0]));
        let frame = loop {
            if let Answer::Granted(frame) = step_and_carry_out(&pool, &buffers, write_page, 0)? {
                break frame;
            }
        };
        let mut buffer = buffers[usize::from(frame)].lock().unwrap();
        assert!(!buffer.loaded && !buffer.dirty);
        buffer.bytes.fill(page as u8);
        (buffer.loaded, buffer.dirty) = (true, true);
        pool.lock().unwrap().release(0, page)?;
    }
    let written = written.into_inner().unwrap();
    assert_eq!(written.len(), 2);
    assert!(written.iter().all(|&(page, byte)| page == u32::from(byte)));

    let pools: Result<Vec<_>, _> = (0..4).map(|_| Pool::new(8, 4, 3, 0).map(Mutex::new)).collect();
    let floor = Floor(pools?);
    assert!(std::ptr::eq(floor.place(7).0, floor.place(11).0));
    assert_eq!(floor.place(11).1, 2);
    Ok(())
}
