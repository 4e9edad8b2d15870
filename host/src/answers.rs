//! What the calls answer: document 01's refusal numbers, and the four structs of the C interface.

/// Why a call was refused. The numbers are document 01's; 9 belongs to its bench program alone.
#[derive(Clone, Copy, Debug, PartialEq, Eq)]
#[repr(u64)]
pub enum Refusal {
    /// The image's length is 0, over 65,536, or no multiple of 256.
    ImageLength = 1,
    /// put, set, del: the list has room for fewer than 112 words.
    ListRoom = 2,
    /// The image is not sound.
    NotSound = 3,
    /// put: the key is present.
    KeyPresent = 4,
    /// find, set, del: the key is absent.
    KeyAbsent = 5,
    /// put: the target leaf is full and all blocks are chained.
    NoBlockLeft = 6,
    /// run, cut: n over 56, the list shorter than 2n words, or one of the first n steps malformed.
    BadSteps = 7,
    /// recovery: one of the buffers holds fewer entries than the image has blocks.
    BufferRoom = 8,
    /// cut: arrivals not one per line, or one below its line's settled or above its made stores.
    BadArrivals = 10,
}

impl Refusal {
    const ALL: [Refusal; 9] = [
        Refusal::ImageLength,
        Refusal::ListRoom,
        Refusal::NotSound,
        Refusal::KeyPresent,
        Refusal::KeyAbsent,
        Refusal::NoBlockLeft,
        Refusal::BadSteps,
        Refusal::BufferRoom,
        Refusal::BadArrivals,
    ];

    pub fn number(self) -> u64 {
        self as u64
    }

    pub fn from_number(number: u64) -> Option<Refusal> {
        Refusal::ALL.into_iter().find(|refusal| refusal.number() == number)
    }
}

/// Write-back steps of a list: what source 001 counts.
#[derive(Clone, Copy, Debug, Default, PartialEq, Eq, PartialOrd, Ord)]
pub struct LineWrites(pub u64);

/// Store steps of a list.
#[derive(Clone, Copy, Debug, Default, PartialEq, Eq, PartialOrd, Ord)]
pub struct WordWrites(pub u64);

/// What an accepted put, set or del tells of the list it wrote.
#[derive(Clone, Copy, Debug, Default, PartialEq, Eq)]
pub struct Counts {
    pub steps: u64,
    pub line_writes: LineWrites,
    pub word_writes: WordWrites,
}

/// What an accepted recovery tells.
#[derive(Clone, Copy, Debug, Default, PartialEq, Eq)]
pub struct Tree {
    pub leaves: u64,
    pub entries: u64,
}

/// `hut_found`: answer 0 or a refusal number, then what is told; a refusal tells zeros. So with the three below.
#[derive(Clone, Copy, Debug, Default, PartialEq, Eq)]
#[repr(C)]
pub struct Found {
    pub answer: u64,
    pub value: u64,
}

/// `hut_made`
#[derive(Clone, Copy, Debug, Default, PartialEq, Eq)]
#[repr(C)]
pub struct Made {
    pub answer: u64,
    pub steps: u64,
    pub line_writes: u64,
    pub word_writes: u64,
}

/// `hut_listed`
#[derive(Clone, Copy, Debug, Default, PartialEq, Eq)]
#[repr(C)]
pub struct Listed {
    pub answer: u64,
    pub count: u64,
}

/// `hut_recovered`
#[derive(Clone, Copy, Debug, Default, PartialEq, Eq)]
#[repr(C)]
pub struct Recovered {
    pub answer: u64,
    pub leaves: u64,
    pub entries: u64,
}

impl From<Result<u64, Refusal>> for Found {
    fn from(result: Result<u64, Refusal>) -> Found {
        match result {
            Ok(value) => Found { answer: 0, value },
            Err(refusal) => Found { answer: refusal.number(), ..Found::default() },
        }
    }
}

impl From<Result<Counts, Refusal>> for Made {
    fn from(result: Result<Counts, Refusal>) -> Made {
        match result {
            Ok(Counts { steps, line_writes, word_writes }) => {
                Made { answer: 0, steps, line_writes: line_writes.0, word_writes: word_writes.0 }
            }
            Err(refusal) => Made { answer: refusal.number(), ..Made::default() },
        }
    }
}

impl From<Result<u64, Refusal>> for Listed {
    fn from(result: Result<u64, Refusal>) -> Listed {
        match result {
            Ok(count) => Listed { answer: 0, count },
            Err(refusal) => Listed { answer: refusal.number(), ..Listed::default() },
        }
    }
}

impl From<Result<Tree, Refusal>> for Recovered {
    fn from(result: Result<Tree, Refusal>) -> Recovered {
        match result {
            Ok(Tree { leaves, entries }) => Recovered { answer: 0, leaves, entries },
            Err(refusal) => Recovered { answer: refusal.number(), ..Recovered::default() },
        }
    }
}

/// The answer of run and cut.
pub fn number_of(result: Result<(), Refusal>) -> u64 {
    result.map_or_else(Refusal::number, |()| 0)
}
