//! A queue of boxed values.

use crate::raw::{self, until_answered, Counts, Raw, Unmade, Untold};
use std::cell::Cell;
use std::error::Error;
use std::fmt;
use std::marker::PhantomData;
use std::mem;
use std::ptr;
use std::sync::Arc;

/// The passes of a new queue that nobody has yet. The queue itself lives until its last pass ends.
pub struct Queue<T: Send> {
    passes: std::vec::IntoIter<QueuePass<T>>,
}

impl<T: Send> Queue<T> {
    /// An empty queue over 2 to 65,535 rows, for 1 to 16 agents. A value takes a row while it waits, and the queue itself
    /// always one.
    pub fn new(rows: u32, agents: usize) -> Result<Queue<T>, Unmade> {
        // SAFETY: there are as many empty passes.
        let raw = Raw::made(agents, |passes| unsafe {
            raw::mooringakee_queue_make(rows, raw::TURNS, passes, agents)
        })?;
        let all = Arc::new(());
        let passes: Vec<_> = raw
            .into_iter()
            .map(|raw| QueuePass {
                raw,
                all: Some(Arc::clone(&all)),
                of: PhantomData,
            })
            .collect();
        Ok(Queue {
            passes: passes.into_iter(),
        })
    }

    /// The next agent's pass, or none where each agent has its own.
    pub fn pass(&mut self) -> Option<QueuePass<T>> {
        self.passes.next()
    }
}

/// One agent's pass to a queue. It may be sent to another thread:
///
/// ```
/// fn is_send<T: Send>() {}
/// is_send::<mooringakee::QueuePass<String>>();
/// ```
///
/// but not shared by two:
///
/// ```compile_fail,E0277
/// fn is_sync<T: Sync>() {}
/// is_sync::<mooringakee::QueuePass<String>>();
/// ```
///
/// nor can its values be of a type that stays on its thread:
///
/// ```compile_fail,E0277
/// mooringakee::Queue::<std::rc::Rc<u8>>::new(8, 1);
/// ```
///
/// or live shorter than another pass of the queue says they do:
///
/// ```compile_fail,E0597
/// let mut queue = mooringakee::Queue::<&'static str>::new(8, 2).unwrap();
/// let (one, mut other) = (queue.pass().unwrap(), queue.pass().unwrap());
/// {
///     let text = String::from("short");
///     let mut put: mooringakee::QueuePass<&str> = one;
///     put.enqueue(text.as_str());
/// }
/// other.dequeue();
/// ```
pub struct QueuePass<T: Send> {
    raw: Raw,
    // the last one to give this up takes what is left
    all: Option<Arc<()>>,
    // owns values, and only of this very type: one pass may put what another takes
    of: PhantomData<Cell<T>>,
}

impl<T: Send> QueuePass<T> {
    /// Puts a value at the back. A refusal has the value.
    pub fn enqueue(&mut self, value: T) -> Result<(), Refused<T>> {
        let at = Box::into_raw(Box::new(value));
        let number = at.expose_provenance() as u64;
        // SAFETY: this is the one call with a live pass of a queue.
        match until_answered(|| unsafe { raw::mooringakee_enqueue(&mut self.raw, number) }) {
            raw::OK => Ok(()),
            code => {
                // SAFETY: the queue has not taken the value, so the box is still ours.
                let value = *unsafe { Box::from_raw(at) };
                let why = match code {
                    raw::FULL => Why::Full,
                    raw::POSITIONS => Why::Positions,
                    _ => unreachable!("the pass is a live one of a queue"),
                };
                Err(Refused { value, why })
            }
        }
    }

    /// Takes the value at the front, or none where the queue is empty.
    pub fn dequeue(&mut self) -> Option<T> {
        let mut number = 0;
        // SAFETY: as above, and the number is a local.
        match until_answered(|| unsafe { raw::mooringakee_dequeue(&mut self.raw, &mut number) }) {
            raw::OK => {
                let at = ptr::with_exposed_provenance_mut::<T>(number as usize);
                // SAFETY: what is taken was put by `enqueue`, and is taken once.
                Some(*unsafe { Box::from_raw(at) })
            }
            raw::EMPTY => None,
            _ => unreachable!("the pass is a live one of a queue"),
        }
    }
}

impl<T: Send> QueuePass<T> {
    /// Ends the pass, and drops the values that are left where all others have ended or are ending. Of all passes the last
    /// one is told how many rows the queue gave, freed and has linked.
    ///
    /// ```
    /// let mut queue = mooringakee::Queue::new(8, 2)?;
    /// let (mut one, other) = (queue.pass().unwrap(), queue.pass().unwrap());
    /// one.enqueue(7).unwrap();
    /// assert_eq!(other.close(), Err(mooringakee::Untold::Others));
    /// let counts = one.close()?;
    /// assert_eq!((counts.given, counts.reused, counts.linked), (2, 1, 1));
    /// # Ok::<(), Box<dyn std::error::Error>>(())
    /// ```
    pub fn close(mut self) -> Result<Counts, Untold> {
        self.drop_left();
        mem::replace(&mut self.raw, Raw::empty()).close()
    }

    fn drop_left(&mut self) {
        // `into_inner` is `Some` for exactly one of the passes.
        if self.all.take().and_then(Arc::into_inner).is_some() {
            while self.dequeue().is_some() {}
        }
    }
}

impl<T: Send> Drop for QueuePass<T> {
    fn drop(&mut self) {
        self.drop_left();
    }
}

impl<T: Send> fmt::Debug for Queue<T> {
    fn fmt(&self, f: &mut fmt::Formatter<'_>) -> fmt::Result {
        f.debug_struct("Queue")
            .field("passes", &self.passes.len())
            .finish_non_exhaustive()
    }
}

impl<T: Send> fmt::Debug for QueuePass<T> {
    fn fmt(&self, f: &mut fmt::Formatter<'_>) -> fmt::Result {
        f.debug_struct("QueuePass").finish_non_exhaustive()
    }
}

/// A value that was not put, and why.
#[derive(Clone, Copy, PartialEq, Eq)]
pub struct Refused<T> {
    pub value: T,
    pub why: Why,
}

/// Why a value was not put.
#[derive(Clone, Copy, Debug, PartialEq, Eq)]
pub enum Why {
    /// No row is free.
    Full,
    /// 2^62 values were put, and no more can be.
    Positions,
}

impl<T> fmt::Debug for Refused<T> {
    fn fmt(&self, f: &mut fmt::Formatter<'_>) -> fmt::Result {
        f.debug_struct("Refused")
            .field("why", &self.why)
            .finish_non_exhaustive()
    }
}

impl<T> fmt::Display for Refused<T> {
    fn fmt(&self, f: &mut fmt::Formatter<'_>) -> fmt::Result {
        f.write_str(match self.why {
            Why::Full => "no row of the queue is free",
            Why::Positions => "the queue has had its last value",
        })
    }
}

impl<T> Error for Refused<T> {}
