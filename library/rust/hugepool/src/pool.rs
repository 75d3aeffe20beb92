//! Pools.
use crate::event::Event;
use crate::outcome::Outcome;
use hugepool_sys as sys;
use std::cell::UnsafeCell;
use std::error::Error;
use std::fmt;

/// How large a pool is: 1 to 4,096 frames, 1 to 16 files, 1 to 64 slots, 1 to 64 tasks, and a quota of at most 65,536 pages. As text it is
/// the first line of a trace.
#[derive(Clone, Copy, Debug, PartialEq, Eq, Hash)]
pub struct Sizes {
    /// Frames, one for a huge page.
    pub frames: u32,
    /// Files, which are numbered from 0.
    pub files: u32,
    /// Slots of the fault mutex table.
    pub slots: u32,
    /// Tasks, which are numbered from 1.
    pub tasks: u32,
    /// How many pages all files together may have, where that is limited.
    pub quota: Option<u32>,
}

impl fmt::Display for Sizes {
    fn fmt(&self, f: &mut fmt::Formatter<'_>) -> fmt::Result {
        write!(f, "pool {} {} {} {}", self.frames, self.files, self.slots, self.tasks)?;
        self.quota.map_or(Ok(()), |quota| write!(f, " {quota}"))
    }
}

/// The sizes of a trace's first line, which stands here without its end.
impl std::str::FromStr for Sizes {
    type Err = Fault;

    fn from_str(line: &str) -> Result<Sizes, Fault> {
        let mut config = sys::ConfigWords::default();
        // SAFETY: the line and the words are there, and apart.
        checked(unsafe { sys::hugepool_read_config(line.as_ptr(), line.len(), &mut config) })?;
        let sys::ConfigWords { frames, files, slots, tasks, quota, has_quota } = config;
        Ok(Sizes { frames, files, slots, tasks, quota: has_quota.then_some(quota) })
    }
}

/// Why a call did nothing.
#[derive(Clone, Copy, Debug, PartialEq, Eq)]
#[non_exhaustive]
pub enum Fault {
    /// There was no memory.
    NoMemory,
    /// No config, event, file or task has these numbers.
    NoSuch,
    /// A call of a task is in flight, so there is no copy.
    InFlight,
    /// There is no room for the outcome of the next event.
    TooSmall,
}

impl fmt::Display for Fault {
    fn fmt(&self, f: &mut fmt::Formatter<'_>) -> fmt::Result {
        f.write_str(match self {
            Fault::NoMemory => "there was no memory",
            Fault::NoSuch => "no config, event, file or task has these numbers",
            Fault::InFlight => "a call is in flight, so there is no copy",
            Fault::TooSmall => "there is no room for the outcome of the next event",
        })
    }
}

impl Error for Fault {}

fn checked(code: u32) -> Result<(), Fault> {
    match code {
        0 => Ok(()),
        2 => Err(Fault::NoMemory),
        3 => Err(Fault::NoSuch),
        4 => Err(Fault::InFlight),
        7 => Err(Fault::TooSmall),
        other => unreachable!("code {other} of an open pool"),
    }
}

/// An open pool. It may go to another thread, and is used by one at a time.
///
/// ```
/// fn moves<T: Send>() {}
/// moves::<hugepool::Pool>();
/// ```
///
/// ```compile_fail
/// fn is_shared<T: Sync>() {}
/// is_shared::<hugepool::Pool>();
/// ```
pub struct Pool {
    // (readers write to it while they run, and leave it as it was)
    handle: UnsafeCell<sys::Handle>,
}

// SAFETY: What the handle points to is reached through it alone: an opened pool and a copy have each its own. A call uses the handle, that
// memory and malloc, and nothing that belongs to a thread: the library has no variables, of a thread or of the process (its tests look at
// that). So calls may be made by one thread after another, and whoever moves a pool orders them.
unsafe impl Send for Pool {}

impl Pool {
    fn closed() -> Pool {
        Pool { handle: UnsafeCell::new(sys::Handle::CLOSED) }
    }

    /// A pool to which nothing has happened.
    pub fn open(sizes: Sizes) -> Result<Pool, Fault> {
        let Sizes { frames, files, slots, tasks, quota } = sizes;
        let config = sys::ConfigWords { frames, files, slots, tasks, quota: quota.unwrap_or(0), has_quota: quota.is_some() };
        let mut pool = Pool::closed();
        // SAFETY: both are there, and apart; the handle is closed.
        checked(unsafe { sys::hugepool_open(pool.handle.get_mut(), &config) })?;
        Ok(pool)
    }

    /// A reader's numbers.
    fn read<W: Default>(&self, call: impl FnOnce(*const sys::Handle, &mut W) -> u32) -> Result<W, Fault> {
        let mut words = W::default();
        checked(call(self.handle.get(), &mut words))?;
        Ok(words)
    }

    /// A pool of its own in the same state, where no call is in flight.
    pub fn try_clone(&self) -> Result<Pool, Fault> {
        let mut copy = Pool::closed();
        // SAFETY: both are there, and apart; the handles are our own, and no other call is at them: a pool isn't `Sync`.
        checked(unsafe { sys::hugepool_copy(self.handle.get(), copy.handle.get_mut()) })?;
        Ok(copy)
    }

    /// One event, and what came of it.
    pub fn event(&mut self, event: Event) -> Result<Outcome, Fault> {
        let mut outcome = sys::OutcomeWords::default();
        // SAFETY: all are there, and apart.
        checked(unsafe { sys::hugepool_event(self.handle.get_mut(), &event.into(), &mut outcome) })?;
        Ok(outcome.into())
    }

    /// Events, one after the other, whose outcomes are put into a list. How many happened, and what stopped the next:
    /// [`Fault::TooSmall`] where the list is shorter than the events.
    pub fn events(&mut self, events: &[sys::EventWords], outcomes: &mut [sys::OutcomeWords]) -> (usize, Result<(), Fault>) {
        let (count, room, mut done) = (events.len(), outcomes.len(), 0);
        // SAFETY: the slices have so many elements, and are apart.
        let code = unsafe {
            sys::hugepool_events(self.handle.get_mut(), events.as_ptr(), count, outcomes.as_mut_ptr(), room, &mut done)
        };
        (done, checked(code))
    }

    /// What comes of each of these events, which happens as its outcome is asked for.
    pub fn run<'a>(&'a mut self, events: impl IntoIterator<Item = Event> + 'a) -> impl Iterator<Item = Result<Outcome, Fault>> + 'a {
        events.into_iter().map(move |event| self.event(event))
    }

    /// What would come of an event that would change nothing.
    pub fn held_back(&self, event: Event) -> Result<Option<Outcome>, Fault> {
        let mut is_held_back = false;
        // SAFETY: all are there, and apart; no other call is at the handle.
        let call = |pool, outcome: &mut _| unsafe { sys::hugepool_held_back(pool, &event.into(), &mut is_held_back, outcome) };
        let outcome: sys::OutcomeWords = self.read(call)?;
        Ok(is_held_back.then(|| outcome.into()))
    }

    /// What the pool holds.
    pub fn numbers(&self) -> Result<sys::PoolWords, Fault> {
        // SAFETY: both are there, and apart; no other call is at the handle.
        self.read(|pool, numbers| unsafe { sys::hugepool_pool_numbers(pool, numbers) })
    }

    /// What a file holds.
    pub fn file(&self, file: u32) -> Result<sys::FileWords, Fault> {
        // SAFETY: both are there, and apart; no other call is at the handle.
        self.read(|pool, numbers| unsafe { sys::hugepool_file_numbers(pool, file, numbers) })
    }

    /// What each file holds, from number 0 on.
    pub fn files(&self) -> impl Iterator<Item = Result<sys::FileWords, Fault>> + '_ {
        (0..self.numbers().map_or(0, |it| it.files)).map(|file| self.file(file))
    }

    /// What a task holds, and where its call stands.
    pub fn task(&self, task: u32) -> Result<sys::TaskWords, Fault> {
        // SAFETY: both are there, and apart; no other call is at the handle.
        self.read(|pool, numbers| unsafe { sys::hugepool_task_numbers(pool, task, numbers) })
    }

    /// What each task holds, from number 1 on.
    pub fn tasks(&self) -> impl Iterator<Item = Result<sys::TaskWords, Fault>> + '_ {
        (1..=self.numbers().map_or(0, |it| it.tasks)).map(|task| self.task(task))
    }

    /// What the next step of the task's call has to take.
    pub fn acquires(&self, task: u32) -> Result<sys::AcquiredWords, Fault> {
        // SAFETY: both are there, and apart; no other call is at the handle.
        self.read(|pool, acquired| unsafe { sys::hugepool_acquires(pool, task, acquired) })
    }

    /// The frame that the task's page is translated to, if it is.
    pub fn translate(&self, task: u32, page: u32) -> Result<Option<u32>, Fault> {
        // SAFETY: both are there, and apart; no other call is at the handle.
        let translated: sys::FrameWords = self.read(|pool, it| unsafe { sys::hugepool_translate(pool, task, page, it) })?;
        Ok(translated.is_there.then_some(translated.frame))
    }

    /// Looks at all of the pool: 0, unless the pool's memory was damaged.
    pub fn audit(&self) -> Result<u32, Fault> {
        // SAFETY: both are there, and apart; no other call is at the handle.
        self.read(|pool, finding| unsafe { sys::hugepool_audit(pool, finding) })
    }
}

impl fmt::Debug for Pool {
    fn fmt(&self, f: &mut fmt::Formatter<'_>) -> fmt::Result {
        f.debug_tuple("Pool").field(&self.numbers()).finish()
    }
}

impl Drop for Pool {
    fn drop(&mut self) {
        // SAFETY: the handle is our own; nobody has it any more.
        unsafe { sys::hugepool_close(self.handle.get_mut()) }
    }
}
