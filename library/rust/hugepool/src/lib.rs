//! A pool of huge pages as Linux's hugetlbfs keeps it: the proved libhugepool, behind a safe interface.
//!
//! ```
//! use hugepool::{Event, Op, Pool};
//!
//! let mut pool = Pool::open("pool 4 1 2 2".parse()?)?;
//! let mut outcome = pool.event(Event::Begin(1, Op::Map { file: 0, from: 0, len: 4 }))?;
//! while !outcome.is_end() {
//!     outcome = pool.event(Event::Step(1))?;
//! }
//! println!("{outcome}, {} reserved", pool.numbers()?.resv); // ended mapped 0, 4 reserved
//! # Ok::<(), hugepool::Fault>(())
//! ```
//!
//! It links the library of the folder `HUGEPOOL_LIB_DIR` statically; else the shared one that pkg-config or the linker finds.
#![deny(missing_docs)]

mod event;
mod outcome;
mod pool;
mod searches;
mod texts;

pub use event::{Event, NoEvent, Op};
pub use hugepool_sys::{AcquiredWords, EventWords, FileWords, OutcomeWords, PoolWords, TaskWords};
pub use outcome::{Outcome, ANSWERS, PHASES, REFUSALS};
pub use pool::{Fault, Pool, Sizes};
pub use searches::{find, find_every, minimize, Bounds, Found, Hunt, SearchFault};
pub use texts::{check, draw, explain, explain_json, explain_rows, format, replay, BadTrace};

/// The version of the library that is linked, as 1,000,000 times its first number, 1,000 times its second, and its third.
pub fn library_version() -> u32 {
    // SAFETY: the call has no parameters.
    unsafe { hugepool_sys::hugepool_version() }
}
