//! A set of numbers.

use crate::raw::{self, until_answered, Counts, Raw, Unmade, Untold};
use std::error::Error;
use std::fmt;

/// The passes of a new set that nobody has yet. The set itself lives until its last pass ends.
///
/// ```
/// let mut set = mooringakee::Set::new(64, 4, 2)?;
/// let (mut one, mut other) = (set.pass().unwrap(), set.pass().unwrap());
/// assert_eq!(one.insert(u64::MAX), Ok(true));
/// assert_eq!(other.insert(u64::MAX), Ok(false));
/// assert!(other.contains(u64::MAX));
/// assert!(other.remove(u64::MAX));
/// assert!(!one.contains(u64::MAX));
/// # Ok::<(), mooringakee::Unmade>(())
/// ```
pub struct Set {
    passes: std::vec::IntoIter<Raw>,
}

impl Set {
    /// An empty set over 2 to 65,535 rows with 1 to 257 buckets, for 1 to 16 agents. A key takes a row while it is in the
    /// set, and stands in the bucket of its remainder by their number, which each of its calls walks over.
    pub fn new(rows: u32, buckets: u32, agents: usize) -> Result<Set, Unmade> {
        // SAFETY: there are as many empty passes.
        Set::made(agents, |passes| unsafe {
            raw::mooringakee_set_make(rows, buckets, raw::TURNS, passes, agents)
        })
    }

    /// An empty split-ordered set over 2 to 65,535 rows, for 1 to 16 agents. It begins with one bucket, and doubles them as
    /// keys come, up to so many: 1, 2, 4 and so on, at most 256. Besides the keys, a row is taken by each bucket but the
    /// first once it is used, and by the number of buckets once they were doubled.
    ///
    /// ```
    /// let mut set = mooringakee::Set::split_ordered(64, 16, 1)?;
    /// let mut pass = set.pass().unwrap();
    /// assert_eq!(pass.buckets(), Some(1));
    /// for key in 0..32 {
    ///     assert_eq!(pass.insert(key), Ok(true));
    /// }
    /// assert!(pass.buckets() > Some(1));
    /// assert!((0..32).all(|key| pass.contains(key)));
    /// # Ok::<(), mooringakee::Unmade>(())
    /// ```
    pub fn split_ordered(rows: u32, buckets: u32, agents: usize) -> Result<Set, Unmade> {
        // SAFETY: there are as many empty passes.
        Set::made(agents, |passes| unsafe {
            raw::mooringakee_split_set_make(rows, buckets, raw::TURNS, passes, agents)
        })
    }

    fn made(agents: usize, make: impl FnOnce(*mut Raw) -> i32) -> Result<Set, Unmade> {
        let passes = Raw::made(agents, make)?;
        Ok(Set {
            passes: passes.into_iter(),
        })
    }

    /// The next agent's pass, or none where each agent has its own.
    pub fn pass(&mut self) -> Option<SetPass> {
        self.passes.next().map(|raw| SetPass { raw })
    }
}

/// One agent's pass to a set. It may be sent to another thread, but not shared by two:
///
/// ```
/// fn is_send<T: Send>() {}
/// is_send::<mooringakee::SetPass>();
/// ```
///
/// ```compile_fail,E0277
/// fn is_sync<T: Sync>() {}
/// is_sync::<mooringakee::SetPass>();
/// ```
pub struct SetPass {
    raw: Raw,
}

impl SetPass {
    /// Adds a key. Answers whether it was not there.
    pub fn insert(&mut self, key: u64) -> Result<bool, NotInserted> {
        self.answer(raw::mooringakee_insert, key)
            .map_err(|code| match code {
                raw::FULL => NotInserted::Full,
                raw::SPENT => NotInserted::Spent,
                _ => unreachable!("the pass is a live one of a set"),
            })
    }

    /// Takes a key out. Answers whether it was there.
    pub fn remove(&mut self, key: u64) -> bool {
        self.answer(raw::mooringakee_remove, key)
            .expect("the pass is a live one of a set")
    }

    /// Whether a key is there.
    pub fn contains(&mut self, key: u64) -> bool {
        self.answer(raw::mooringakee_contains, key)
            .expect("the pass is a live one of a set")
    }

    /// How many buckets a split-ordered set has, or none where they are fixed.
    pub fn buckets(&mut self) -> Option<u32> {
        let mut count = 0;
        // SAFETY: as below, and the number is a local.
        match until_answered(|| unsafe { raw::mooringakee_buckets(&mut self.raw, &mut count) }) {
            raw::OK => Some(count),
            raw::KIND => None,
            _ => unreachable!("the pass is a live one of a set"),
        }
    }

    /// Ends the pass. Of all passes the last one is told how many rows the set gave, freed and has linked.
    pub fn close(self) -> Result<Counts, Untold> {
        self.raw.close()
    }

    fn answer(&mut self, call: raw::CallOnSet, key: u64) -> Result<bool, i32> {
        let mut answer = false;
        // SAFETY: this is the one call with a live pass of a set, and the answer is a local.
        match until_answered(|| unsafe { call(&mut self.raw, key, &mut answer) }) {
            raw::OK => Ok(answer),
            code => Err(code),
        }
    }
}

impl fmt::Debug for Set {
    fn fmt(&self, f: &mut fmt::Formatter<'_>) -> fmt::Result {
        f.debug_struct("Set")
            .field("passes", &self.passes.len())
            .finish_non_exhaustive()
    }
}

impl fmt::Debug for SetPass {
    fn fmt(&self, f: &mut fmt::Formatter<'_>) -> fmt::Result {
        f.debug_struct("SetPass").finish_non_exhaustive()
    }
}

/// Why a key was not inserted.
#[derive(Clone, Copy, Debug, PartialEq, Eq)]
pub enum NotInserted {
    /// No row is free.
    Full,
    /// A row has been linked as often as can be.
    Spent,
}

impl fmt::Display for NotInserted {
    fn fmt(&self, f: &mut fmt::Formatter<'_>) -> fmt::Result {
        f.write_str(match self {
            NotInserted::Full => "no row of the set is free",
            NotInserted::Spent => "a row of the set is used up",
        })
    }
}

impl Error for NotInserted {}
