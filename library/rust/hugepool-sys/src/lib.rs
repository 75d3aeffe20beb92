//! The calls of `hugepool.h`, as they are: the header tells what each promises, what each number means, and what a caller owes.
#![no_std]
#![deny(missing_docs)]

use core::ffi::c_void;

/// An open pool, or a closed one.
#[repr(C)]
pub struct Handle {
    /// Not to be looked at, as the others.
    pub core: *mut c_void,
    /// Whether there is a pool.
    pub is_open: bool,
    /// Whether its last event changed nothing.
    pub was_held_back: bool,
}

/// How large a pool is. `quota` counts only where `has_quota` is true.
#[repr(C)]
#[derive(Clone, Copy, Debug, Default, PartialEq, Eq, Hash)]
pub struct ConfigWords {
    /// 1 to 4096.
    pub frames: u32,
    /// 1 to 16, which are numbered from 0.
    pub files: u32,
    /// Slots of the fault mutex table: 1 to 64.
    pub slots: u32,
    /// 1 to 64, which are numbered from 1.
    pub tasks: u32,
    /// Where has_quota: how many pages all files may have, at most 65536.
    pub quota: u32,
    /// Whether that is limited.
    pub has_quota: bool,
}

/// An event. What its kind and its call don't name isn't looked at.
#[repr(C)]
#[derive(Clone, Copy, Debug, Default, PartialEq, Eq, Hash)]
pub struct EventWords {
    /// What a store writes.
    pub word: u64,
    /// An `enum hugepool_event_kind`.
    pub kind: u32,
    /// Whose event it is.
    pub task: u32,
    /// An `enum hugepool_op`.
    pub op: u32,
    /// A file's number.
    pub file: u32,
    /// An index of the file.
    pub from: u32,
    /// Pages from there on; the new size, or the pool's new number of frames.
    pub len: u32,
    /// A page of the task, where its mappings are.
    pub page: u32,
}

/// An outcome. What doesn't belong to its kind, or to its answer, is 0.
#[repr(C)]
#[derive(Clone, Copy, Debug, Default, PartialEq, Eq, Hash)]
pub struct OutcomeWords {
    /// What a load read.
    pub word: u64,
    /// An `enum hugepool_outcome_kind`.
    pub kind: u32,
    /// An `enum hugepool_phase`.
    pub phase: u32,
    /// Who holds what a step wants.
    pub task: u32,
    /// An `enum hugepool_answer`.
    pub answer: u32,
    /// Where a new mapping begins.
    pub page: u32,
    /// How many aren't retired.
    pub frames: u32,
    /// An `enum hugepool_refusal`.
    pub refusal: u32,
}

/// What a pool holds. `quota` counts only where `has_quota` is true.
#[repr(C)]
#[derive(Clone, Copy, Debug, Default, PartialEq, Eq, Hash)]
pub struct PoolWords {
    /// What calls in flight owe to the reserve count.
    pub owed: i64,
    /// What they owe to the used count.
    pub used_owed: i64,
    /// Frames that aren't retired.
    pub frames: u32,
    /// Free ones.
    pub free: u32,
    /// The reserve count.
    pub resv: u32,
    /// The used count, which a quota bounds.
    pub used: u32,
    /// The quota, where has_quota.
    pub quota: u32,
    /// Calls in flight.
    pub calls: u32,
    /// Files.
    pub files: u32,
    /// Tasks.
    pub tasks: u32,
    /// Whether there is a quota.
    pub has_quota: bool,
}

/// What a file holds.
#[repr(C)]
#[derive(Clone, Copy, Debug, Default, PartialEq, Eq, Hash)]
pub struct FileWords {
    /// Regions of its reserve map.
    pub regions: usize,
    /// Pending changes of that.
    pub changes: usize,
    /// Spare descriptors for these.
    pub spare: usize,
    /// Its size.
    pub size: u32,
    /// Its reserved indices.
    pub reserved: u32,
    /// Its pages.
    pub pages: u32,
}

/// What a task holds, and where its call stands. `holder` counts only where `is_blocked` is true.
#[repr(C)]
#[derive(Clone, Copy, Debug, Default, PartialEq, Eq, Hash)]
pub struct TaskWords {
    /// Its mappings.
    pub mappings: usize,
    /// Its translated pages.
    pub entries: usize,
    /// An `enum hugepool_life`.
    pub life: u32,
    /// An `enum hugepool_phase`: where its call stands.
    pub phase: u32,
    /// Where is_blocked: who holds what the call's next step wants.
    pub holder: u32,
    /// Whether somebody does.
    pub is_blocked: bool,
}

/// What the next step of a call has to take.
#[repr(C)]
#[derive(Clone, Copy, Debug, Default, PartialEq, Eq, Hash)]
pub struct AcquiredWords {
    /// An `enum hugepool_acquired_kind`.
    pub kind: u32,
    /// The file of the lock or the slot.
    pub file: u32,
    /// The index of the slot.
    pub index: u32,
}

/// The frame that a page is translated to, which counts only where `is_there` is true.
#[repr(C)]
#[derive(Clone, Copy, Debug, Default, PartialEq, Eq, Hash)]
pub struct FrameWords {
    /// The frame, where is_there.
    pub frame: u32,
    /// Whether the page is translated.
    pub is_there: bool,
}

/// Which random runs of a script are searched: run k goes by the generator that is seeded with `seed + k`, wrapping.
#[repr(C)]
#[derive(Clone, Copy, Debug, Default, PartialEq, Eq, Hash)]
pub struct HuntWords {
    /// The seed of run 0.
    pub seed: u64,
    /// So many runs, from run 0 on.
    pub limit: u32,
    /// The chance in 1000 that an allocation fails.
    pub deny: u32,
    /// The chance in 1000 that a turn kills its task.
    pub kill: u32,
}

/// Which schedules of a script are searched, and how far.
#[repr(C)]
#[derive(Clone, Copy, Debug, Default, PartialEq, Eq, Hash)]
pub struct BoundsWords {
    /// So many allocations fail in a schedule, at most.
    pub denials: u32,
    /// So many tasks are killed in it, at most.
    pub kills: u32,
    /// So many states are kept at once, at most.
    pub states: u32,
}

impl Handle {
    /// A closed pool.
    pub const CLOSED: Handle = Handle { core: core::ptr::null_mut(), is_open: false, was_held_back: false };
}

extern "C" {
    /// Opens a pool of these sizes, to which nothing has happened.
    pub fn hugepool_open(pool: *mut Handle, config: *const ConfigWords) -> u32;
    /// Makes a copy of a pool in which no call is in flight.
    pub fn hugepool_copy(pool: *const Handle, copy: *mut Handle) -> u32;
    /// Gives the pool's memory back.
    pub fn hugepool_close(pool: *mut Handle);
    /// One event, and its outcome.
    pub fn hugepool_event(pool: *mut Handle, event: *const EventWords, outcome: *mut OutcomeWords) -> u32;
    /// Events, one after the other, with their outcomes; `done` is how many happened.
    pub fn hugepool_events(
        pool: *mut Handle,
        events: *const EventWords,
        count: usize,
        outcomes: *mut OutcomeWords,
        room: usize,
        done: *mut usize,
    ) -> u32;
    /// Whether an event would change nothing, and then its outcome.
    pub fn hugepool_held_back(
        pool: *const Handle,
        event: *const EventWords,
        is_held_back: *mut bool,
        outcome: *mut OutcomeWords,
    ) -> u32;
    /// The numbers of the pool.
    pub fn hugepool_pool_numbers(pool: *const Handle, numbers: *mut PoolWords) -> u32;
    /// The numbers of a file.
    pub fn hugepool_file_numbers(pool: *const Handle, file: u32, numbers: *mut FileWords) -> u32;
    /// The numbers of a task.
    pub fn hugepool_task_numbers(pool: *const Handle, task: u32, numbers: *mut TaskWords) -> u32;
    /// What the next step of the task's call has to take.
    pub fn hugepool_acquires(pool: *const Handle, task: u32, acquired: *mut AcquiredWords) -> u32;
    /// The frame that the task's page is translated to.
    pub fn hugepool_translate(pool: *const Handle, task: u32, page: u32, translated: *mut FrameWords) -> u32;
    /// Looks at all of the pool.
    pub fn hugepool_audit(pool: *const Handle, finding: *mut u32) -> u32;
    /// A line for each outcome of the trace, and then the state.
    pub fn hugepool_replay(trace: *const u8, length: usize, out: *mut u8, room: usize, needed: *mut usize, line: *mut u32) -> u32;
    /// A row of words for each event of the trace, and then the state.
    pub fn hugepool_explain(trace: *const u8, length: usize, out: *mut u8, room: usize, needed: *mut usize, line: *mut u32) -> u32;
    /// The rows of some of its lines, and then the state behind the last.
    pub fn hugepool_explain_rows(trace: *const u8, length: usize, first: u32, last: u32, out: *mut u8, room: usize, needed: *mut usize, line: *mut u32) -> u32;
    /// The rows of some lines as lines of JSON.
    pub fn hugepool_explain_json(trace: *const u8, length: usize, first: u32, last: u32, out: *mut u8, room: usize, needed: *mut usize, line: *mut u32) -> u32;
    /// The trace that a text in the loose form asks for.
    pub fn hugepool_format(text: *const u8, length: usize, out: *mut u8, room: usize, needed: *mut usize, line: *mut usize) -> u32;
    /// What is wrong with the line that it refused.
    pub fn hugepool_format_reason(text: *const u8, length: usize, out: *mut u8, room: usize, needed: *mut usize) -> u32;
    /// A picture of the trace, an SVG.
    pub fn hugepool_draw(trace: *const u8, length: usize, out: *mut u8, room: usize, needed: *mut usize, line: *mut u32) -> u32;
    /// How many events the trace has.
    pub fn hugepool_check(trace: *const u8, length: usize, events: *mut u32, line: *mut u32) -> u32;
    /// What is wrong with a line of the trace.
    pub fn hugepool_reason(trace: *const u8, length: usize, line: u32, out: *mut u8, room: usize, needed: *mut usize) -> u32;
    /// A small trace that still meets the conditions.
    pub fn hugepool_minimize(trace: *const u8, length: usize, conditions: *const u8, size: usize, out: *mut u8, room: usize, needed: *mut usize, line: *mut u32) -> u32;
    /// The first of these runs that meets the conditions.
    pub fn hugepool_find(script: *const u8, length: usize, conditions: *const u8, size: usize, hunt: *const HuntWords, out: *mut u8, room: usize, needed: *mut usize, line: *mut u32, run: *mut u32) -> u32;
    /// A shortest of all schedules that meet the conditions.
    pub fn hugepool_find_every(script: *const u8, length: usize, conditions: *const u8, size: usize, bounds: *const BoundsWords, out: *mut u8, room: usize, needed: *mut usize, line: *mut u32, turns: *mut u32) -> u32;
    /// The sizes that a trace's first line spells.
    pub fn hugepool_read_config(line: *const u8, length: usize, config: *mut ConfigWords) -> u32;
    /// The event that another line spells.
    pub fn hugepool_read_event(line: *const u8, length: usize, event: *mut EventWords) -> u32;
    /// The line of an event.
    pub fn hugepool_write_event(event: *const EventWords, out: *mut u8, room: usize, needed: *mut usize) -> u32;
    /// The line of an outcome, as a replay writes it.
    pub fn hugepool_write_outcome(outcome: *const OutcomeWords, out: *mut u8, room: usize, needed: *mut usize) -> u32;
    /// The library's version.
    pub fn hugepool_version() -> u32;
}
