//! Plays a file of calls and prints the answers, to be compared with those of other programs.
//!
//!     play schedule FILE    a schedule file (SPECIFICATION, section 9); prints its report (section 10)
//!     play script FILE      a script with reads and writes, as `crates/test_bytes` reads it; prints what that prints
//!
//! A schedule is played on a `Pool`. A script lends stores of wrong lengths and looks into frames, which a `Pool`
//! does not let anyone do: so it is played on the parts of a pool, and each of its calls that a `Pool` can make is
//! made on one beside them, with the same answer, or the exit status is 1.

#[path = "../src/raw.rs"]
mod raw;

use foqheran::{Answer, Pool, Refusal, Row, Step};
use raw::Parts;
use std::fmt::Write;

fn main() {
    let arguments: Vec<String> = std::env::args().skip(1).collect();
    let (kind, name) = match arguments.as_slice() {
        [kind, name] if kind == "schedule" || kind == "script" => (kind, name),
        _ => fail(2, "usage: play schedule FILE, or play script FILE"),
    };
    let file = std::fs::read(name).unwrap_or_else(|why| fail(2, &format!("{name}: {why}")));
    let report = if kind == "schedule" { schedule_report(&file) } else { script_report(&file) };
    if let Err(why) = std::io::Write::write_all(&mut std::io::stdout(), report.as_bytes()) {
        fail(2, &format!("standard output: {why}"));
    }
}

fn fail(status: i32, why: &str) -> ! {
    eprintln!("{why}");
    std::process::exit(status)
}

/// Four bytes as a number, the lowest first.
fn number(bytes: &[u8]) -> u32 {
    u32::from_le_bytes([bytes[0], bytes[1], bytes[2], bytes[3]])
}

/// A line of a report. A `String` takes whatever is written.
macro_rules! print_to {
    ($report:expr, $($what:tt)*) => { writeln!($report, $($what)*).expect("there is memory for the report") };
}

/// The code and the value of an answer (SPECIFICATION 3.6) that is done with this value, or refused.
fn coded(answer: Result<u32, Refusal>) -> (u32, u32) {
    match answer {
        Ok(value) => (0, value),
        Err(refusal) => (refusal.code(), 0),
    }
}

fn coded_step(answer: Result<Step, Refusal>) -> (u32, u32) {
    match answer.map(|step| step.answer) {
        Ok(Answer::Working(stage)) => (1, stage.into()),
        Ok(Answer::Granted(frame)) => (2, frame.into()),
        Err(refusal) => (refusal.code(), 0),
    }
}

// ---- schedules

const LONGEST_FILE: usize = 16_384;

enum Record {
    Setup { slots: u8, clients: u8, cap: u8, hand: u32 },
    Begin { client: u8, page: u32 },
    Step { client: u8 },
    Release { client: u8, page: u32 },
}

/// The record that these bytes start with and its length, or the refusal that ends the run.
fn record(bytes: &[u8], first: bool) -> Result<(Record, usize), u32> {
    if bytes.len() < 8 || (bytes.len() < 10 && bytes[2] == 0) {
        return Err(3);
    }
    if bytes[..2] != *b"FC" {
        return Err(4);
    }
    let kind = bytes[2];
    if kind > 3 {
        return Err(5);
    }
    if (kind == 0) != first {
        return Err(6);
    }
    let (client, page) = (bytes[3], number(&bytes[4..]));
    match kind {
        0 => {
            let (slots, clients, cap, hand) = (bytes[3], bytes[4], bytes[5], number(&bytes[6..]));
            Ok((Record::Setup { slots, clients, cap, hand }, 10))
        }
        1 => Ok((Record::Begin { client, page }, 8)),
        2 if page != 0 => Err(7),
        2 => Ok((Record::Step { client }, 8)),
        _ => Ok((Record::Release { client, page }, 8)),
    }
}

fn schedule_report(file: &[u8]) -> String {
    let mut report = String::new();
    if file.len() > LONGEST_FILE {
        return report;
    }
    let mut pool = None;
    let (mut rest, mut count) = (file, 0);
    while count == 0 || !rest.is_empty() {
        let (read, length) = match record(rest, count == 0) {
            Ok(found) => found,
            Err(refusal) => {
                print_to!(report, "{count} 0 {} 0", 100 + refusal);
                return report;
            }
        };
        let (client, (code, value)) = match (read, &mut pool) {
            (Record::Setup { slots, clients, cap, hand }, _) => {
                let answer = Pool::new(slots, clients, cap, hand).map(|made| pool = Some(made));
                (0, coded(answer.map(|()| slots.into())))
            }
            (Record::Begin { client, page }, Some(pool)) => (client, coded(pool.begin(client, page).map(|()| page))),
            (Record::Step { client }, Some(pool)) => (client, coded_step(pool.step(client))),
            (Record::Release { client, page }, Some(pool)) => {
                (client, coded(pool.release(client, page).map(|()| page)))
            }
            (_, None) => return report, // the setup was refused
        };
        print_to!(report, "{count} {client} {code} {value}");
        rest = &rest[length..];
        count += 1;
    }
    report
}

// ---- scripts

/// Bytes that stores are cut from.
const SPACE: usize = 16_512;

/// A line of a script: a record of 12 bytes.
struct Line {
    kind: u8,
    client: u8,
    byte: u8,
    more: u8,
    page: u32,
    offset: u32,
}

impl Line {
    const LENGTH: usize = 12;

    fn of(record: &[u8]) -> Line {
        let (page, offset) = (number(&record[4..]), number(&record[8..]));
        Line { kind: record[0], client: record[1], byte: record[2], more: record[3], page, offset }
    }
}

/// What a script plays on.
struct Player {
    space: Vec<u8>,
    /// How many bytes of the space are lent.
    lent: usize,
    tally: [u32; 6],
    parts: Parts,
    /// The same once more. Its store is as long as at setup.
    pool: Pool,
    /// Whether the tally is still the one that the pool has.
    same_tally: bool,
}

impl Player {
    /// Whether what is lent is as long as the pool's store.
    fn lends_the_store(&self) -> bool {
        self.lent == self.pool.store().len()
    }

    /// A call: its code and value. What is none of the kinds before is a write.
    fn call(&mut self, line: &Line) -> (u32, u32) {
        let &Line { kind, client, byte, page, offset, .. } = line;
        let store = &mut self.space[..self.lent];
        let answer = match kind {
            1 => self.parts.begin(client, page),
            2 => self.parts.step(client, &mut self.tally, &mut 0, store),
            3 => self.parts.release(client, page),
            4 => self.parts.read(client, page, offset, store),
            _ => self.parts.write(client, page, offset, byte, store),
        };
        let found = ((answer >> 32) as u32, answer as u32);
        let beside = match kind {
            1 => coded(self.pool.begin(client, page).map(|()| page)),
            3 => coded(self.pool.release(client, page).map(|()| page)),
            _ if !self.lends_the_store() => return found,
            2 => coded_step(self.pool.step(client)),
            4 => coded(self.pool.read(client, page, offset).map(u32::from)),
            _ => coded(self.pool.write(client, page, offset, byte).map(|()| page)),
        };
        same("the answer", &found, &beside);
        found
    }

    /// Frames, space, tally and holdings.
    fn dump(&self, report: &mut String) {
        let pages = self.parts.bytes.chunks(64).zip(self.parts.filled).zip(self.parts.changed);
        for (frame, ((bytes, filled), changed)) in pages.enumerate().take(self.pool.frames()) {
            print_to!(report, "{frame} {} {} {}", u8::from(filled != 0), u8::from(changed != 0), hexadecimal(bytes));
        }
        let length = self.pool.store().len();
        for page in self.space[..length.max(64)].chunks(64) {
            print_to!(report, "- {}", hexadecimal(page));
        }
        let [hits, joins, admitted, revived, drops, refused] = self.tally;
        print_to!(report, "tally {hits} {joins} {admitted} {revived} {drops} {refused}");
        for client in 0..=self.parts.client_count {
            let needed = self.list(client, 8, report);
            self.list(client, needed, report);
            if needed > 0 {
                self.list(client, needed - 1, report);
            }
        }
        same("the store", &self.space[..length], self.pool.store());
        let tally = self.pool.tally();
        let counts = [tally.hits, tally.joins, tally.admitted, tally.revived, tally.drops, tally.refused];
        if self.same_tally {
            same("the tally", &self.tally, &counts);
        }
        same("check 8", &(self.parts.check(&self.space[..length]) >> 32), &0);
        same("the pool's check 8", &self.pool.check(), &Ok(()));
    }

    /// The client's holdings on the first so many of eight rows; how many rows they need.
    fn list(&self, client: u8, room: usize, report: &mut String) -> usize {
        // nothing is held 77 times
        let (mut rows, mut beside) = ([[77, 77]; 8], [Row { page: 77, times: 77 }; 8]);
        let answer = self.parts.holdings(client, &mut rows[..room]);
        let (code, value) = ((answer >> 32) as u32, answer as u32);
        let shown = rows.map(|[page, times]| if times == 77 { " .".into() } else { format!(" {page}x{times}") });
        print_to!(report, "holds {client} {room} {code} {value}{}", shown.concat());
        let listed = self.pool.holdings_into(client, &mut beside[..room]);
        same("holdings", &(code, value), &coded(listed.map(|count| count as u32)));
        same("the rows", &rows, &beside.map(|row| [row.page, row.times]));
        value as usize
    }
}

/// Ends the program if the pool beside the parts is different.
fn same<T: std::fmt::Debug + PartialEq + ?Sized>(what: &str, parts: &T, pool: &T) {
    if parts != pool {
        fail(1, &format!("{what} of the parts is {parts:?}, of the pool {pool:?}"));
    }
}

fn hexadecimal(bytes: &[u8]) -> String {
    bytes.iter().map(|byte| format!("{byte:02x}")).collect()
}

/// What stands in the space at first: it differs from byte to byte and from page to page.
fn first_byte(i: usize) -> u8 {
    (i * 7 + i / 64 * 13 + 5) as u8
}

fn script_report(file: &[u8]) -> String {
    let mut report = String::new();
    let mut lines = file.chunks_exact(Line::LENGTH).map(Line::of);
    let setup = match lines.next() {
        Some(line) if line.offset as usize <= SPACE => line,
        _ => return report,
    };
    let space: Vec<u8> = (0..SPACE).map(first_byte).collect();
    let (lent, mut parts) = (setup.offset as usize, Parts::none());
    let answer = parts.setup(setup.client, setup.byte, setup.more, setup.page, &space[..lent]);
    print_to!(report, "{} {}", answer >> 32, answer as u32);
    let made = Pool::with_store(setup.client, setup.byte, setup.more, setup.page, space[..lent].to_vec());
    same("the setup", &((answer >> 32) as u32), &made.as_ref().err().map_or(0, |refused| refused.refusal().code()));
    let pool = match made {
        Ok(pool) => pool,
        Err(_) => return report,
    };
    let mut player = Player { space, lent, tally: [0; 6], parts, pool, same_tally: true };
    for line in lines {
        match line.kind {
            6 => player.lent = line.page as usize,
            7 => player.dump(&mut report),
            8 => (player.tally, player.same_tally) = ([line.page; 6], false),
            _ if player.lent > SPACE => {}
            _ => {
                let (code, value) = player.call(&line);
                print_to!(report, "{code} {value}");
            }
        }
    }
    report
}
