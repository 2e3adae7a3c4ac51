//! The pool and the reader as one would write them by hand: in place, fixed arrays, nothing proved. It is here to be timed beside the proved
//! run, and takes part in the comparison of reports.

const MARK: [u8; 2] = *b"FC";
const LONGEST_FILE: usize = 16_384;
const LONGEST_LINE: usize = 24;
const INDEX_PAGES: u32 = 4;
const INDEX_COUNT: u8 = 3;

/// How a run ended (SPECIFICATION 10.4).
#[derive(Clone, Copy, Debug, PartialEq, Eq)]
pub struct Ended {
    pub records: u32,
    pub bytes: usize,
    pub refusal: u8,
}

#[derive(Clone, Copy, PartialEq, Eq)]
pub struct FrameId(u8);

/// A frame's pins are -1 where it is evicted.
#[derive(Clone, Copy)]
struct Frame {
    page: u32,
    pins: i16,
    count: u8,
}

#[derive(Clone, Copy)]
struct Grant {
    page: u32,
    frame: FrameId,
}

#[derive(Clone, Copy)]
struct Client {
    stage: u8,
    page: u32,
    own: Option<FrameId>,
    found: Option<FrameId>,
    victim: Option<FrameId>,
    seen: u8,
    place: usize,
    start: u32,
    busy: usize,
    held: usize,
    grants: [Grant; 8],
}

#[derive(Clone, Copy)]
struct Entry {
    page: u32,
    frame: Option<FrameId>,
}

pub enum Answer {
    Done(u32),
    Working(u8),
    Granted(FrameId),
    Refused(u8),
}

pub struct Pool {
    size: usize,
    clients: usize,
    cap: u8,
    hand: u32,
    free: u8,
    last: Option<usize>,
    slots: [Option<FrameId>; 64],
    frames: [Frame; 96],
    table: [Entry; 96],
    team: [Client; 16],
}

const RESTING: Client = Client {
    stage: 0,
    page: 0,
    own: None,
    found: None,
    victim: None,
    seen: 0,
    place: 0,
    start: 0,
    busy: 0,
    held: 0,
    grants: [Grant { page: 0, frame: FrameId(0) }; 8],
};

impl Client {
    fn names(&self, f: FrameId) -> bool {
        self.own == Some(f)
            || self.found == Some(f)
            || self.victim == Some(f)
            || self.grants[..self.held].iter().any(|g| g.frame == f)
    }

    fn works(&mut self, stage: u8) -> Answer {
        self.stage = stage;
        Answer::Working(stage)
    }

    fn rest(&mut self) {
        self.stage = 0;
        self.own = None;
        self.found = None;
        self.victim = None;
    }

    fn granted(&mut self, frame: FrameId) -> Answer {
        self.grants[self.held] = Grant { page: self.page, frame };
        self.held += 1;
        self.rest();
        Answer::Granted(frame)
    }

    fn busy_visit(&mut self, size: usize) -> Answer {
        self.victim = None;
        self.busy += 1;
        if self.busy == size {
            self.rest();
            return Answer::Refused(15);
        }
        self.place = around(self.place, size);
        self.works(11)
    }

    fn next_slot(&mut self, size: usize) -> Answer {
        self.victim = None;
        self.busy = 0;
        self.place = around(self.place, size);
        self.works(11)
    }
}

fn around(place: usize, size: usize) -> usize {
    if place + 1 == size { 0 } else { place + 1 }
}

impl Pool {
    pub fn new(size: usize, clients: usize, cap: u8, hand: u32) -> Pool {
        Pool {
            size,
            clients,
            cap,
            hand,
            free: size as u8,
            last: None,
            slots: [None; 64],
            frames: [Frame { page: 0, pins: -1, count: 0 }; 96],
            table: [Entry { page: 0, frame: None }; 96],
            team: [RESTING; 16],
        }
    }

    fn total(&self) -> usize {
        self.size + 2 * self.clients
    }

    fn entry(&self, page: u32) -> Option<usize> {
        self.table[..self.total()].iter().position(|e| e.page == page && e.frame.is_some())
    }

    fn lookup(&self, page: u32) -> Option<FrameId> {
        self.entry(page).and_then(|i| self.table[i].frame)
    }

    fn unused(&self) -> usize {
        self.table[..self.total()].iter().position(|e| e.frame.is_none()).expect("the table is never full")
    }

    fn take(&mut self, page: u32) -> FrameId {
        let total = self.total();
        let mut f = self.last.map_or(0, |l| if l + 1 == total { 0 } else { l + 1 });
        for _ in 0..total {
            let id = FrameId(f as u8);
            let named = self.slots[..self.size].contains(&Some(id))
                || self.table[..total].iter().any(|e| e.frame == Some(id))
                || self.team[..self.clients].iter().any(|c| c.names(id));
            if !named {
                self.last = Some(f);
                let count = if page < INDEX_PAGES { INDEX_COUNT.min(self.cap) } else { 1 };
                self.frames[f] = Frame { page, pins: 1, count };
                return id;
            }
            f = if f + 1 == total { 0 } else { f + 1 };
        }
        unreachable!("there is always an unreferenced frame")
    }

    fn frame(&mut self, f: FrameId) -> &mut Frame {
        &mut self.frames[f.0 as usize]
    }

    fn begin(&mut self, c: usize, page: u32) -> Answer {
        let client = &mut self.team[c];
        if client.stage != 0 {
            return Answer::Refused(10);
        }
        if client.held == 8 {
            return Answer::Refused(12);
        }
        if client.grants[..client.held].iter().any(|g| g.page == page) {
            return Answer::Refused(18);
        }
        client.stage = 1;
        client.page = page;
        Answer::Done(page)
    }

    fn release(&mut self, c: usize, page: u32) -> Answer {
        let client = &mut self.team[c];
        if client.stage != 0 {
            return Answer::Refused(10);
        }
        let i = match client.grants[..client.held].iter().position(|g| g.page == page) {
            Some(i) => i,
            None => return Answer::Refused(13),
        };
        let frame = client.grants[i].frame;
        client.held -= 1;
        client.grants[i] = client.grants[client.held];
        self.frame(frame).pins -= 1;
        Answer::Done(page)
    }

    fn hit(&mut self, c: usize) -> Answer {
        let found = self.team[c].found.expect("a frame was found");
        let cap = self.cap;
        let frame = self.frame(found);
        if frame.count < cap {
            frame.count += 1;
        }
        self.team[c].granted(found)
    }

    fn give_up(&mut self, c: usize, stage: u8) -> Answer {
        let own = self.team[c].own.take().expect("the client has a frame");
        let frame = self.frame(own);
        if frame.pins == 1 {
            frame.pins = -1;
        }
        self.team[c].works(stage)
    }

    fn step(&mut self, c: usize) -> Answer {
        let size = self.size;
        let k = self.team[c];
        match k.stage {
            0 => Answer::Refused(11),
            1 => match self.lookup(k.page) {
                None => self.team[c].works(4),
                found => {
                    self.team[c].found = found;
                    self.team[c].works(2)
                }
            },
            2 => {
                let frame = self.frame(k.found.unwrap());
                if frame.pins >= 0 {
                    frame.pins += 1;
                    return self.team[c].works(3);
                }
                self.team[c].found = None;
                self.team[c].works(4)
            }
            3 | 21 => self.hit(c),
            4 => {
                let own = self.take(k.page);
                self.team[c].own = Some(own);
                self.team[c].works(5)
            }
            5 => {
                if self.free == 0 {
                    return self.team[c].works(10);
                }
                self.team[c].seen = self.free;
                self.team[c].works(6)
            }
            6 => {
                if self.free == k.seen {
                    self.free -= 1;
                    return self.team[c].works(7);
                }
                self.team[c].works(5)
            }
            7 => {
                self.team[c].place = (self.hand % size as u32) as usize;
                self.team[c].works(8)
            }
            8 => {
                if self.slots[k.place].is_none() {
                    self.slots[k.place] = k.own;
                    return self.team[c].works(9);
                }
                self.team[c].place = around(k.place, size);
                self.team[c].works(8)
            }
            9 => {
                self.hand = self.hand.wrapping_add(1);
                self.team[c].works(18)
            }
            10 => {
                let client = &mut self.team[c];
                client.start = self.hand;
                client.place = (self.hand % size as u32) as usize;
                client.busy = 0;
                client.works(11)
            }
            11 => match self.slots[k.place] {
                None => self.team[c].busy_visit(size),
                victim => {
                    self.team[c].victim = victim;
                    self.team[c].works(12)
                }
            },
            12 => match self.frame(k.victim.unwrap()).pins {
                -1 => self.team[c].works(15),
                0 => self.team[c].works(13),
                _ => self.team[c].busy_visit(size),
            },
            13 => {
                let frame = self.frame(k.victim.unwrap());
                frame.count = frame.count.saturating_sub(1);
                if frame.count == 0 {
                    return self.team[c].works(14);
                }
                self.team[c].next_slot(size)
            }
            14 => {
                let frame = self.frame(k.victim.unwrap());
                if frame.pins == 0 {
                    frame.pins = -1;
                    return self.team[c].works(15);
                }
                self.team[c].next_slot(size)
            }
            15 => {
                if self.slots[k.place] == k.victim {
                    self.slots[k.place] = k.own;
                    return self.team[c].works(16);
                }
                self.team[c].next_slot(size)
            }
            16 => {
                let s = (k.start % size as u32) as usize;
                let grows = if k.place < s { k.place + size + 1 - s } else { k.place + 1 - s };
                self.hand = self.hand.wrapping_add(grows as u32);
                self.team[c].works(17)
            }
            17 => {
                let victim = k.victim.unwrap();
                if let Some(i) = self.entry(self.frames[victim.0 as usize].page) {
                    if self.table[i].frame == Some(victim) {
                        self.table[i].frame = None;
                    }
                }
                self.team[c].victim = None;
                self.team[c].works(18)
            }
            18 => match self.lookup(k.page) {
                None => {
                    let i = self.unused();
                    self.table[i] = Entry { page: k.page, frame: k.own };
                    self.team[c].granted(k.own.unwrap())
                }
                found => {
                    self.team[c].found = found;
                    self.team[c].works(19)
                }
            },
            19 => {
                let frame = self.frame(k.found.unwrap());
                if frame.pins >= 0 {
                    frame.pins += 1;
                    return self.team[c].works(20);
                }
                self.team[c].works(22)
            }
            20 => self.give_up(c, 21),
            22 => {
                let i = self.entry(k.page);
                if let Some(i) = i.filter(|&i| self.table[i].frame == k.found) {
                    self.table[i].frame = k.own;
                    return self.team[c].granted(k.own.unwrap());
                }
                self.team[c].found = None;
                self.team[c].works(23)
            }
            _ => self.give_up(c, 4),
        }
    }

    /// What a record asks for: a begin (1), a step (2) or a release (3).
    #[inline]
    pub fn call(&mut self, kind: u8, client: u8, page: u32) -> Answer {
        let c = usize::from(client);
        if c >= self.clients {
            Answer::Refused(9)
        } else if kind == 1 {
            self.begin(c, page)
        } else if kind == 2 {
            self.step(c)
        } else {
            self.release(c, page)
        }
    }
}

/// Four bytes as a number, the lowest first.
pub fn number(bytes: &[u8]) -> u32 {
    u32::from_le_bytes([bytes[0], bytes[1], bytes[2], bytes[3]])
}

enum Record {
    Setup(u8, u8, u8, u32),
    Call(u8, u8, u32),
}

fn read(bytes: &[u8], first: bool) -> Result<Record, u8> {
    if bytes.len() < 8 || (bytes.len() < 10 && bytes[2] == 0) {
        return Err(3);
    }
    if bytes[..2] != MARK {
        return Err(4);
    }
    let kind = bytes[2];
    if kind > 3 {
        return Err(5);
    }
    if (kind == 0) != first {
        return Err(6);
    }
    if kind == 0 {
        let (s, t, c) = (bytes[3], bytes[4], bytes[5]);
        if !(1..=64).contains(&s) || !(1..=16).contains(&t) || !(1..=100).contains(&c) {
            return Err(8);
        }
        return Ok(Record::Setup(s, t, c, number(&bytes[6..])));
    }
    let page = number(&bytes[4..]);
    if kind == 2 && page != 0 {
        return Err(7);
    }
    Ok(Record::Call(kind, bytes[3], page))
}

fn decimal(out: &mut [u8], value: u32) -> usize {
    let mut digits = [0u8; 10];
    let mut n = 0;
    let mut rest = value;
    loop {
        digits[n] = b'0' + (rest % 10) as u8;
        n += 1;
        rest /= 10;
        if rest == 0 {
            break;
        }
    }
    for i in 0..n {
        out[i] = digits[n - 1 - i];
    }
    n
}

fn line(out: &mut [u8], numbers: [u32; 4]) -> usize {
    let mut at = 0;
    for (i, n) in numbers.into_iter().enumerate() {
        if i > 0 {
            out[at] = b' ';
            at += 1;
        }
        at += decimal(&mut out[at..], n);
    }
    out[at] = b'\n';
    at + 1
}

/// An answer's code and value (SPECIFICATION 3.6).
pub fn coded(answer: Answer) -> (u32, u32) {
    match answer {
        Answer::Done(value) => (0, value),
        Answer::Working(stage) => (1, stage.into()),
        Answer::Granted(frame) => (2, frame.0.into()),
        Answer::Refused(n) => (100 + u32::from(n), 0),
    }
}

/// Plays a schedule file and writes its report.
pub fn run(schedule: &[u8], report: &mut [u8]) -> Ended {
    if schedule.len() > LONGEST_FILE {
        return Ended { records: 0, bytes: 0, refusal: 1 };
    }
    let mut pool = Pool::new(0, 0, 0, 0);
    let (mut at, mut bytes, mut records) = (0, 0, 0);
    loop {
        if records > 0 && at == schedule.len() {
            return Ended { records, bytes, refusal: 0 };
        }
        if report.len() - bytes < LONGEST_LINE {
            return Ended { records, bytes, refusal: 2 };
        }
        let (client, answer) = match read(&schedule[at..], records == 0) {
            Err(refusal) => {
                bytes += line(&mut report[bytes..], [records, 0, 100 + u32::from(refusal), 0]);
                return Ended { records, bytes, refusal };
            }
            Ok(Record::Setup(s, t, c, hand)) => {
                pool = Pool::new(s.into(), t.into(), c, hand);
                at += 10;
                (0, Answer::Done(s.into()))
            }
            Ok(Record::Call(kind, client, page)) => {
                at += 8;
                (client, pool.call(kind, client, page))
            }
        };
        let (code, value) = coded(answer);
        bytes += line(&mut report[bytes..], [records, client.into(), code, value]);
        records += 1;
    }
}
