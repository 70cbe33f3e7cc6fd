//! A lock-free queue and lock-free sets that reclaim their nodes by themselves, over a library whose calls are proved.
//!
//! A container hands out its passes, one for each agent, 1 to 16. Each thread calls with a pass of its own: a pass goes
//! from thread to thread as a value, and a call takes it as `&mut`. A container takes all its memory when it is made;
//! only the boxes of the queue's values come and go, and the last pass that is closed takes a list of the passes. No call
//! waits.
//!
//! ```
//! use mooringakee::Queue;
//!
//! let mut queue = Queue::new(64, 2)?;
//! let (mut here, mut there) = (queue.pass().unwrap(), queue.pass().unwrap());
//! let putter = std::thread::spawn(move || there.enqueue(String::from("a value")));
//! assert!(putter.join().unwrap().is_ok());
//! assert_eq!(here.dequeue().as_deref(), Some("a value"));
//! assert_eq!(here.dequeue(), None);
//! # Ok::<(), mooringakee::Unmade>(())
//! ```
//!
//! # Why this is safe
//!
//! The header `mooringakee.h` lists what a caller owes the library. A program of safe code can't fail to give it:
//!
//! - A pass begins empty, is written by the library alone, and is never copied: it lies in the private `Raw`, which is
//!   not `Clone`, and whose bytes only move.
//! - One call at a time: each takes `&mut`. No pass is `Sync`, and none has a call that takes `&self`.
//! - A pass changes threads only as a value or a `&mut`, which safe code orders as the library wants it. That the type
//!   behind the pointer may do so is proved where the library is made, so `Raw` is `Send`.
//! - No pointer is null, and results are written to locals.
//! - Memory comes from `malloc` and `free` of the C library that the program is linked with.
//! - A signal handler, or a child of `fork`, is reached through `unsafe` code alone, and no call is left by a panic:
//!   the library calls nothing of the program's.
//!
//! The queue's values are boxes, given to the library as numbers:
//!
//! - A box is given up when it is put, and made again by the call that takes it. Its number comes out once for each time
//!   that it was put, so no box is made twice. This is what a queue's history says.
//! - What was written to a value before it was put is seen by who takes it: the library's atomic steps are sequentially
//!   consistent, and one of them hands the value over.
//! - Values cross threads, so `T: Send` is asked for. All passes of a queue put and take values of the very same type,
//!   down to its lifetimes: `T` is invariant.
//! - Whoever ends the last pass takes what is left, and drops it. If that panics, the rest leaks.
//! - A pass that is closed is moved, and an empty one is left in its place.

mod queue;
mod raw;
mod set;

pub use queue::{Queue, QueuePass, Refused, Why};
pub use raw::{Counts, Unmade, Untold};
pub use set::{NotInserted, Set, SetPass};
