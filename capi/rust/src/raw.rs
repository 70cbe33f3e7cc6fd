//! A pass as the library has it.

use std::error::Error;
use std::fmt;
use std::ptr;

pub(crate) const OK: i32 = 0;
pub(crate) const AGAIN: i32 = 1;
pub(crate) const FULL: i32 = 2;
pub(crate) const POSITIONS: i32 = 3;
pub(crate) const EMPTY: i32 = 4;
pub(crate) const NO_MEMORY: i32 = 6;
pub(crate) const KIND: i32 = 10;
pub(crate) const SPENT: i32 = 11;
const OTHERS: i32 = 12;

// How often a call tries before it answers AGAIN.
pub(crate) const TURNS: u64 = 64;

const MOST_AGENTS: usize = 16;

/// An agent's pass: `struct mooringakee_pass`. It gives its place up when it is dropped.
#[repr(C)]
pub(crate) struct Raw {
    at: *mut u8,
    live: bool,
}

// SAFETY: what is behind the pointer is proved to be fit for another thread.
unsafe impl Send for Raw {}

extern "C" {
    pub(crate) fn mooringakee_queue_make(
        rows: u32,
        turns: u64,
        passes: *mut Raw,
        agents: usize,
    ) -> i32;
    pub(crate) fn mooringakee_enqueue(pass: *mut Raw, value: u64) -> i32;
    pub(crate) fn mooringakee_dequeue(pass: *mut Raw, value: *mut u64) -> i32;
    pub(crate) fn mooringakee_set_make(
        rows: u32,
        buckets: u32,
        turns: u64,
        passes: *mut Raw,
        agents: usize,
    ) -> i32;
    pub(crate) fn mooringakee_split_set_make(
        rows: u32,
        buckets: u32,
        turns: u64,
        passes: *mut Raw,
        agents: usize,
    ) -> i32;
    pub(crate) fn mooringakee_insert(pass: *mut Raw, key: u64, answer: *mut bool) -> i32;
    pub(crate) fn mooringakee_remove(pass: *mut Raw, key: u64, answer: *mut bool) -> i32;
    pub(crate) fn mooringakee_contains(pass: *mut Raw, key: u64, answer: *mut bool) -> i32;
    pub(crate) fn mooringakee_buckets(pass: *mut Raw, buckets: *mut u32) -> i32;
    fn mooringakee_drop(pass: *mut Raw) -> i32;
    fn mooringakee_close(pass: *mut Raw, counts: *mut Counts) -> i32;
}

/// A call with a key, which writes its answer.
pub(crate) type CallOnSet =
    unsafe extern "C" fn(pass: *mut Raw, key: u64, answer: *mut bool) -> i32;

impl Raw {
    /// The passes that a make fills, in order of agent.
    pub(crate) fn made(
        agents: usize,
        make: impl FnOnce(*mut Raw) -> i32,
    ) -> Result<Vec<Raw>, Unmade> {
        if agents > MOST_AGENTS {
            return Err(Unmade::Shape);
        }
        let mut passes: Vec<Raw> = (0..agents).map(|_| Raw::empty()).collect();
        match make(passes.as_mut_ptr()) {
            OK => Ok(passes),
            NO_MEMORY => Err(Unmade::NoMemory),
            _ => Err(Unmade::Shape),
        }
    }
}

/// What a container tells of its rows at its end: `struct mooringakee_counts`. As many were given as were freed and are
/// linked.
#[repr(C)]
#[derive(Clone, Copy, Debug, PartialEq, Eq)]
pub struct Counts {
    /// Rows given, each as often as it was.
    pub given: u64,
    /// Rows freed, to be given again, each as often as it was.
    pub reused: u64,
    /// Rows still linked: one for each key that was left, and one of a queue's own; in a set one more for a key that was
    /// removed where its unlinking met other calls; in a split-ordered set those of its buckets and of their number.
    pub linked: u32,
}

/// Why a pass that was closed was not told of the rows.
#[derive(Clone, Copy, Debug, PartialEq, Eq)]
pub enum Untold {
    /// Other passes of the container are live.
    Others,
    /// It was the last one, but there is not enough memory.
    NoMemory,
}

impl Raw {
    /// No pass.
    pub(crate) fn empty() -> Raw {
        Raw {
            at: ptr::null_mut(),
            live: false,
        }
    }

    /// Ends the pass. The last one of its container is told of the rows.
    pub(crate) fn close(mut self) -> Result<Counts, Untold> {
        let mut counts = Counts {
            given: 0,
            reused: 0,
            linked: 0,
        };
        // SAFETY: this is the one call with the pass, and the counts are a local.
        match unsafe { mooringakee_close(&mut self, &mut counts) } {
            OK => Ok(counts),
            OTHERS => Err(Untold::Others),
            NO_MEMORY => Err(Untold::NoMemory),
            _ => unreachable!("the pass is a live one, and each ends by a drop or a close"),
        }
    }
}

impl Drop for Raw {
    fn drop(&mut self) {
        // SAFETY: an empty pass is answered with a code, and a live one is this agent's.
        unsafe { mooringakee_drop(self) };
    }
}

/// Makes a call until others no longer come in between.
pub(crate) fn until_answered(mut call: impl FnMut() -> i32) -> i32 {
    loop {
        match call() {
            AGAIN => std::hint::spin_loop(),
            code => return code,
        }
    }
}

/// Why no container was made.
#[derive(Clone, Copy, Debug, PartialEq, Eq)]
pub enum Unmade {
    /// Rows are 2 to 65,535, agents 1 to 16, and buckets 1 to 257; of a split-ordered set a power of two up to 256.
    Shape,
    /// There is not enough memory.
    NoMemory,
}

impl fmt::Display for Unmade {
    fn fmt(&self, f: &mut fmt::Formatter<'_>) -> fmt::Result {
        f.write_str(match self {
            Unmade::Shape => "rows, agents or buckets are out of range",
            Unmade::NoMemory => "there is not enough memory",
        })
    }
}

impl Error for Unmade {}

impl fmt::Display for Untold {
    fn fmt(&self, f: &mut fmt::Formatter<'_>) -> fmt::Result {
        f.write_str(match self {
            Untold::Others => "other passes are live",
            Untold::NoMemory => "there is not enough memory",
        })
    }
}

impl Error for Untold {}
