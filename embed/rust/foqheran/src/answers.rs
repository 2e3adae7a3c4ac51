//! What calls answer, and what they list and count.

use std::fmt;

/// What an accepted step came to.
#[derive(Clone, Copy, Debug, PartialEq, Eq, Hash)]
pub enum Answer {
    /// The request goes on. The client now stands at this stage, 1 to 23.
    Working(u8),
    /// The page is in this frame, and is the client's until it releases it.
    Granted(u8),
}

impl fmt::Display for Answer {
    fn fmt(&self, f: &mut fmt::Formatter<'_>) -> fmt::Result {
        match self {
            Answer::Working(stage) => write!(f, "working, now at stage {stage}"),
            Answer::Granted(frame) => write!(f, "granted frame {frame}"),
        }
    }
}

/// What a step leaves to be done with buffers, by a program that keeps the pages' bytes in buffers of its own, one for
/// each frame.
///
/// It belongs to the same action as the step: it has to be carried out before the next call on the pool.
#[derive(Clone, Copy, Debug, PartialEq, Eq, Hash)]
#[must_use = "with buffers of its own a program has to carry it out before the next call"]
pub enum Duty {
    /// The page leaves the pool. If the frame's buffer has changed bytes of it, they go to where the page is kept. From
    /// now on the buffer holds nothing.
    WriteBack {
        /// The frame that had the page.
        frame: u8,
        /// The page that it had.
        page: u32,
    },
    /// The page goes on in another frame. What the one buffer holds is the other's now, with its marks (loaded,
    /// changed).
    Move {
        /// The frame that had the page, and whose buffer now holds nothing.
        frame: u8,
        /// The frame that has it now.
        target: u8,
    },
}

impl fmt::Display for Duty {
    fn fmt(&self, f: &mut fmt::Formatter<'_>) -> fmt::Result {
        match self {
            Duty::WriteBack { frame, page } => write!(f, "write frame {frame} back as page {page}"),
            Duty::Move { frame, target } => write!(f, "move what frame {frame} has to frame {target}"),
        }
    }
}

/// An accepted step: its answer, and what is to be done with buffers, if anything.
#[derive(Clone, Copy, Debug, PartialEq, Eq, Hash)]
pub struct Step {
    /// Where the request stands.
    pub answer: Answer,
    /// For programs with buffers of their own. Where the pool has a store, it has done this itself.
    pub duty: Option<Duty>,
}

/// Why a call was refused. All but [`AllBusy`](Refusal::AllBusy) leave everything as it was.
#[derive(Clone, Copy, Debug, PartialEq, Eq, Hash)]
#[non_exhaustive]
pub enum Refusal {
    /// 8: a number of the setup, or the store's length, is out of range. Only [`Pool::new`](crate::Pool::new) and
    /// [`Pool::with_store`](crate::Pool::with_store) are refused so.
    OutOfRange,
    /// 9: the pool has fewer clients.
    NoSuchClient,
    /// 10: the client's request has to be answered first.
    AtWork,
    /// 11: the client has no request that a step could move on.
    AtRest,
    /// 12: the client holds 8 grants, which is all that it may, and has to release one first.
    HasEight,
    /// 13: the client has no grant of this page.
    NotHeld,
    /// 14: the client holds more pages than the list has rows.
    FewRows,
    /// 15: every slot was in use when the client came by. Its request is over, and it holds what it held before.
    AllBusy,
    /// 16: the store has no such page; of a read or write also: there is no store.
    OutsideStore,
    /// 17: a page has 64 bytes, at the offsets 0 to 63.
    OutsidePage,
    /// 18: the client holds this page already. It can use it as it is, and releases it once.
    HeldAlready,
    /// An answer with a code that this crate does not know. The proved library has no such answer.
    Other(u32),
}

impl Refusal {
    /// In the order of their numbers, from 8 on.
    const KNOWN: [Refusal; 11] = [
        Refusal::OutOfRange,
        Refusal::NoSuchClient,
        Refusal::AtWork,
        Refusal::AtRest,
        Refusal::HasEight,
        Refusal::NotHeld,
        Refusal::FewRows,
        Refusal::AllBusy,
        Refusal::OutsideStore,
        Refusal::OutsidePage,
        Refusal::HeldAlready,
    ];

    pub(crate) fn of(code: u32) -> Refusal {
        let known = code.checked_sub(108).and_then(|place| Refusal::KNOWN.get(place as usize));
        known.copied().unwrap_or(Refusal::Other(code))
    }

    /// The code of the answer: 100 and the refusal's [number](Refusal::number).
    ///
    /// ```
    /// assert_eq!(foqheran::Refusal::AllBusy.code(), 115);
    /// ```
    pub fn code(self) -> u32 {
        match (self, Refusal::KNOWN.iter().position(|&known| known == self)) {
            (Refusal::Other(code), _) => code,
            (_, place) => 108 + place.unwrap_or_default() as u32,
        }
    }

    /// The refusal's number, 8 to 18: as `docs/SPECIFICATION.md` and `docs/SERVER.md` list them.
    ///
    /// ```
    /// assert_eq!(foqheran::Refusal::AllBusy.number(), 15);
    /// ```
    pub fn number(self) -> u32 {
        self.code().saturating_sub(100)
    }
}

impl fmt::Display for Refusal {
    fn fmt(&self, f: &mut fmt::Formatter<'_>) -> fmt::Result {
        let why = match self {
            Refusal::OutOfRange => "a number of the setup or of the pool is out of range",
            Refusal::NoSuchClient => "there is no such client",
            Refusal::AtWork => "the client is at work",
            Refusal::AtRest => "the client is at rest",
            Refusal::HasEight => "the client has 8 grants already",
            Refusal::NotHeld => "the client does not hold this page",
            Refusal::FewRows => "the list has too few rows",
            Refusal::AllBusy => "its sweep met only busy slots",
            Refusal::OutsideStore => "the page is outside the store",
            Refusal::OutsidePage => "the offset is 64 or more",
            Refusal::HeldAlready => "the client holds this page already",
            Refusal::Other(code) => return write!(f, "an answer with the unknown code {code}"),
        };
        write!(f, "refused by {}: {why}", self.number())
    }
}

impl std::error::Error for Refusal {}

/// A refused setup with a store, which it gives back. Where a [`Refusal`] is expected, `?` makes one of it.
#[derive(Clone, PartialEq, Eq)]
pub struct NotSetUp {
    pub(crate) refusal: Refusal,
    pub(crate) store: Vec<u8>,
}

impl NotSetUp {
    /// Why.
    pub fn refusal(&self) -> Refusal {
        self.refusal
    }

    /// The store, as it was given.
    pub fn into_store(self) -> Vec<u8> {
        self.store
    }
}

impl fmt::Debug for NotSetUp {
    fn fmt(&self, f: &mut fmt::Formatter<'_>) -> fmt::Result {
        f.debug_struct("NotSetUp").field("refusal", &self.refusal).field("bytes", &self.store.len()).finish()
    }
}

impl fmt::Display for NotSetUp {
    fn fmt(&self, f: &mut fmt::Formatter<'_>) -> fmt::Result {
        self.refusal.fmt(f)
    }
}

impl std::error::Error for NotSetUp {}

impl From<NotSetUp> for Refusal {
    fn from(refused: NotSetUp) -> Refusal {
        refused.refusal
    }
}

/// The value of a call that was done.
#[inline]
pub(crate) fn done(answer: u64) -> Result<u32, Refusal> {
    match (answer >> 32) as u32 {
        0 => Ok(answer as u32),
        code => Err(Refusal::of(code)),
    }
}

#[inline]
pub(crate) fn stepped(answer: u64, duty: u64) -> Result<Step, Refusal> {
    let value = answer as u8;
    let answer = match (answer >> 32) as u32 {
        1 => Answer::Working(value),
        2 => Answer::Granted(value),
        code => return Err(Refusal::of(code)),
    };
    let frame = (duty >> 32) as u8;
    let duty = match duty >> 40 {
        1 => Some(Duty::WriteBack { frame, page: duty as u32 }),
        2 => Some(Duty::Move { frame, target: duty as u8 }),
        _ => None,
    };
    Ok(Step { answer, duty })
}

/// What the steps of a pool came to since its setup. A count that is as large as it can be stays so.
///
/// While neither `admitted` nor `drops` is, `admitted - drops` is the number of pages in the pool.
#[derive(Clone, Copy, Debug, Default, PartialEq, Eq, Hash)]
pub struct Tally {
    /// Grants of a page that was there.
    pub hits: u32,
    /// Grants of a page that another client brought in or revived meanwhile.
    pub joins: u32,
    /// Grants of a page that the client brought in.
    pub admitted: u32,
    /// Grants of a page that was evicted and had not left yet: it is kept, in another frame.
    pub revived: u32,
    /// Pages that left the pool. A page that is evicted and then revived never left.
    pub drops: u32,
    /// Requests that ended with [`Refusal::AllBusy`].
    pub refused: u32,
}

impl Tally {
    pub(crate) fn of(counts: [u32; 6]) -> Tally {
        let [hits, joins, admitted, revived, drops, refused] = counts;
        Tally { hits, joins, admitted, revived, drops, refused }
    }
}

impl fmt::Display for Tally {
    fn fmt(&self, f: &mut fmt::Formatter<'_>) -> fmt::Result {
        let Tally { hits, joins, admitted, revived, drops, refused } = self;
        write!(
            f,
            "{hits} hits, {joins} joins, {admitted} admitted, {revived} revived, {drops} dropped, {refused} refused"
        )
    }
}

/// A page that a client holds.
#[derive(Clone, Copy, Debug, Default, PartialEq, Eq, Hash)]
pub struct Row {
    /// The page.
    pub page: u32,
    /// How many grants of it the client has: always 1.
    pub times: u32,
}
