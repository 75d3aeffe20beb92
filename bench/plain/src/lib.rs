//! The same steps with nothing proved: what a plain program makes of a trace. Regions, pages, mappings and entries are
//! kept in balanced trees. It shares no line with the proved crates: it was written from the tables of docs/MACHINE.md,
//! and so it is what they are compared with.
pub mod text;

use std::collections::BTreeMap;

pub const LIMIT: u32 = 4096;
pub const VPNS: u32 = 16_384;
pub const MOST_FRAMES: u32 = 4096;

#[derive(Clone, Copy, PartialEq)]
pub enum Phase {
    Start, Look, Want, Locked, Missing, Changed, Abort, Taken, Settle, Committed, Restore, Found,
    Leave, Room, Accounted, Enter, Head, Unslot, Extend, Unmap, Evict, Delete, Free, Size, Tail,
    Clear, Drop,
}

pub const WORDS: [&str; 27] = [
    "start", "look", "want", "locked", "missing", "changed", "abort", "taken", "settle", "committed",
    "restore", "found", "leave", "room", "accounted", "enter", "head", "unslot", "extend", "unmap",
    "evict", "delete", "free", "size", "tail", "clear", "drop",
];

#[derive(Clone, Copy)]
pub enum Answer {
    Mapped(u32), Word(u64), Done, Segv, Beyond, NoFrame, NoQuota, NoMemory, Interrupted, Killed, BadFile,
    BadRange, NotMapped, NoAddress,
}

#[derive(Clone, Copy, PartialEq)]
pub enum Kind { Load, Store, Map, MapNoReserve, Alloc, Punch, Truncate, Unmap, Exit }

#[derive(Clone, Copy)]
pub struct Call {
    pub kind: Kind, pub phase: Phase, pub file: u32, from: u32, len: u32, keep: bool, vpn: u32, word: u64,
    pub index: u32, pub missing: u32, pub excess: u32, base: u32, held: u32, task: u32, pub denied: bool,
    pub evicted: u32, answer: Option<Answer>,
}

pub enum Outcome { Begun, Moved(Phase), Blocked(u32), Ended(Answer), Marked, Resized(u32), NotAlive, InCall, Idle, BadSize }

#[derive(Clone, Copy)]
pub enum Event { Begin(u32, Call), Step(u32, bool), Kill(u32), Resize(u32) }

/// What the first line of a trace says.
#[derive(Clone, Copy)]
pub struct Sizes { pub frames: u32, pub files: u32, pub slots: u32, pub tasks: u32, pub quota: Option<u32> }

#[derive(Clone, Copy, PartialEq)]
pub enum Life { Alive, Killed, Dead }

#[derive(Clone, Copy)]
pub struct Mapping { pub base: u32, pub file: u32, pub from: u32, pub len: u32 }

#[derive(Default, Clone)]
pub struct File { pub size: u32, pub regions: BTreeMap<u32, u32>, pub pending: u32, pub spare: u32, pub pages: BTreeMap<u32, u32> }

pub struct Task { pub life: Life, pub call: Option<Call>, pub mappings: BTreeMap<u32, Mapping>, pub entries: BTreeMap<u32, u32> }

pub struct Pool {
    words: Vec<u64>, pub free: Vec<u32>, retired: Vec<u32>, pub resv: u32, pub used: u32, pub quota: Option<u32>,
    pub files: Vec<File>, slots: Vec<Option<u32>>, locks: Vec<Option<u32>>, pub tasks: Vec<Task>,
}

impl File {
    // the region that begins last at or below an index
    fn before(&self, i: u32) -> Option<(u32, u32)> { self.regions.range(..=i).next_back().map(|(&from, &to)| (from, to)) }
    fn missing(&self, from: u32, to: u32) -> u32 {
        let first = self.before(from).map_or(from, |r| r.0);
        let held: u32 = self.regions.range(first..to).map(|(&a, &b)| b.min(to).saturating_sub(a.max(from))).sum();
        to - from - held
    }
    /// How many indices are reserved.
    pub fn reserved(&self) -> u32 { LIMIT - self.missing(0, LIMIT) }
    fn add(&mut self, from: u32, to: u32) -> u32 {
        let added = self.missing(from, to);
        let first = self.before(from).filter(|r| r.1 >= from).map_or(from, |r| r.0);
        let mut merged = (from, to);
        let mut alone = true;
        while let Some((&a, &b)) = self.regions.range(first..=to).next() {
            self.regions.remove(&a);
            merged = (merged.0.min(a), merged.1.max(b));
            alone = false;
        }
        self.regions.insert(merged.0, merged.1);
        self.spare -= u32::from(alone);
        self.pending -= 1;
        added
    }
    fn change(&mut self, grant: bool) -> bool {
        if self.spare == self.pending {
            if !grant { return false; }
            self.spare += 1;
        }
        self.pending += 1;
        true
    }
    fn delete(&mut self, grant: bool, i: u32) -> bool {
        let (from, to) = match self.before(i) { Some(region) if i < region.1 => region, _ => return true };
        if from < i && i + 1 < to {
            if self.spare > self.pending { self.spare -= 1 } else if !grant { return false; }
        }
        self.regions.remove(&from);
        if from < i { self.regions.insert(from, i); }
        if i + 1 < to { self.regions.insert(i + 1, to); }
        true
    }
    fn tail(&mut self, from: u32) -> u32 {
        let removed = LIMIT - from - self.missing(from, LIMIT);
        self.regions.split_off(&from);
        if let Some(end) = self.regions.values_mut().next_back() { *end = from.min(*end); }
        removed
    }
    fn page(&self, i: u32) -> Option<u32> { self.pages.get(&i).copied() }
}

impl Task {
    fn find(&self, vpn: u32) -> Option<(u32, u32)> {
        let (_, m) = self.mappings.range(..=vpn).next_back()?;
        (vpn - m.base < m.len).then(|| (m.file, m.from + vpn - m.base))
    }
    fn translate(&self, vpn: u32) -> Option<u32> { self.entries.get(&vpn).copied() }
    fn room(&self, len: u32) -> Option<u32> {
        let mut base = 0;
        for m in self.mappings.values() {
            if len <= m.base - base { return Some(base); }
            base = m.base + m.len;
        }
        (len <= VPNS - base).then_some(base)
    }
    fn clear(&mut self, base: u32) {
        let m = match self.mappings.get(&base) { Some(m) => m, None => return };
        while let Some((&vpn, _)) = self.entries.range(base..base + m.len).next() { self.entries.remove(&vpn); }
    }
    fn clear_index(&mut self, file: u32, i: u32) {
        for m in self.mappings.values() {
            if m.file == file && m.from <= i && i - m.from < m.len { self.entries.remove(&(m.base + i - m.from)); }
        }
    }
}

impl Pool {
    pub fn new(sizes: &Sizes) -> Self {
        let Sizes { frames, files, slots, tasks, quota } = *sizes;
        Pool {
            words: vec![0; frames as usize], free: (0..frames).collect(), retired: Vec::new(), resv: 0, used: 0, quota,
            files: vec![File::default(); files as usize], slots: vec![None; slots as usize], locks: vec![None; files as usize],
            tasks: (0..tasks).map(|_| Task { life: Life::Alive, call: None, mappings: BTreeMap::new(), entries: BTreeMap::new() }).collect(),
        }
    }

    pub fn event(&mut self, event: Event) -> Outcome {
        match event {
            Event::Begin(t, call) => self.begin(t, call),
            Event::Step(t, grant) => self.step(t, grant),
            Event::Kill(t) => self.kill(t),
            Event::Resize(n) => self.resize(n),
        }
    }

    pub fn step(&mut self, t: u32, grant: bool) -> Outcome {
        let task = match (t as usize).checked_sub(1).and_then(|at| self.tasks.get(at)) { Some(task) => task, None => return Outcome::NotAlive };
        if task.life == Life::Dead { return Outcome::NotAlive; }
        let mut call = match task.call { Some(call) => call, None => return Outcome::Idle };
        let killed = task.life == Life::Killed;
        let outcome = self.row(t, killed, grant, &mut call);
        let task = &mut self.tasks[t as usize - 1];
        match outcome {
            Outcome::Moved(phase) => { call.phase = phase; task.call = Some(call) }
            Outcome::Ended(_) => {
                task.call = None;
                if call.kind == Kind::Exit { task.life = Life::Dead }
            }
            _ => {}
        }
        outcome
    }

    fn row(&mut self, t: u32, killed: bool, grant: bool, c: &mut Call) -> Outcome {
        use Phase::*;
        let at = t as usize - 1;
        let f = c.file as usize;
        let go = |c: &mut Call, phase: Phase, answer: Answer| { c.answer = Some(answer); Outcome::Moved(phase) };
        let touches = matches!(c.kind, Kind::Load | Kind::Store);
        match c.phase {
            Start => match c.kind {
                Kind::Unmap => if self.tasks[at].mappings.contains_key(&c.base) { Outcome::Moved(Clear) } else { Outcome::Ended(Answer::NotMapped) },
                Kind::Exit => self.next_mapping(at, c),
                _ => self.start(t, killed, c),
            },
            Look => {
                let (file, index) = match self.tasks[at].find(c.vpn) { Some(place) => place, None => return Outcome::Ended(Answer::Segv) };
                match self.tasks[at].translate(c.vpn) {
                    Some(frame) => Outcome::Ended(self.access(c, frame)),
                    None => { c.file = file; c.index = index; Outcome::Moved(Want) }
                }
            }
            Head => if killed { go(c, Leave, Answer::Interrupted) } else { Outcome::Moved(Want) },
            Want => {
                if killed && touches { return Outcome::Ended(Answer::Killed); }
                if killed && c.kind == Kind::Alloc { return go(c, Leave, Answer::Interrupted); }
                let slot = self.slot(c);
                match self.slots[slot] {
                    Some(holder) => Outcome::Blocked(holder),
                    None => { self.slots[slot] = Some(t); Outcome::Moved(Locked) }
                }
            }
            Locked => {
                let page = self.files[f].page(c.index).is_some();
                match c.kind {
                    Kind::Punch | Kind::Truncate => { c.task = 1; Outcome::Moved(if page { Unmap } else { Unslot }) }
                    Kind::Alloc => Outcome::Moved(if page { Unslot } else { Missing }),
                    _ if c.index >= self.files[f].size => go(c, Leave, Answer::Beyond),
                    _ => Outcome::Moved(if page { Found } else { Missing }),
                }
            }
            Room => match self.tasks[at].room(c.len) {
                None => go(c, Leave, Answer::NoAddress),
                Some(_) if !grant => go(c, Leave, Answer::NoMemory),
                Some(base) => { c.base = base; Outcome::Moved(if c.kind == Kind::Map { Missing } else { Enter }) }
            },
            Missing => {
                let (from, to) = if c.kind == Kind::Map { (c.from, c.from + c.len) } else { (c.index, c.index + 1) };
                if !self.files[f].change(grant) { return go(c, if c.kind == Kind::Alloc { Unslot } else { Leave }, Answer::NoMemory); }
                c.missing = self.files[f].missing(from, to);
                Outcome::Moved(Changed)
            }
            Changed => {
                if killed { return go(c, Abort, if c.kind == Kind::Alloc { Answer::Interrupted } else { Answer::Killed }); }
                let free = self.free.len() as u32;
                if matches!(self.quota, Some(quota) if c.missing > quota - self.used) { return go(c, Abort, Answer::NoQuota); }
                if c.missing > free - self.resv { return go(c, Abort, Answer::NoFrame); }
                self.used += c.missing;
                if c.kind == Kind::Map {
                    self.resv += c.missing;
                    return Outcome::Moved(Accounted);
                }
                if c.missing == 0 { self.resv -= 1 }
                c.held = self.free.pop().expect("a free frame");
                Outcome::Moved(Taken)
            }
            Abort => { self.files[f].pending -= 1; Outcome::Moved(if c.kind == Kind::Alloc { Unslot } else { Leave }) }
            Accounted => {
                let added = self.files[f].add(c.from, c.from + c.len);
                c.excess = c.missing - added;
                Outcome::Moved(if added < c.missing { Settle } else { Enter })
            }
            Taken => {
                let added = self.files[f].add(c.index, c.index + 1);
                c.excess = 1;
                Outcome::Moved(if added < c.missing { Settle } else { Committed })
            }
            Settle => {
                self.resv -= c.excess;
                self.used -= if c.kind == Kind::Truncate { c.excess + c.evicted } else { c.excess };
                match c.kind {
                    Kind::Map => Outcome::Moved(Enter),
                    Kind::Truncate => go(c, Leave, Answer::Done),
                    _ => Outcome::Moved(Committed),
                }
            }
            Committed => {
                if touches && c.index >= self.files[f].size { return go(c, Restore, Answer::Beyond); }
                if !grant { return go(c, Restore, Answer::NoMemory); }
                self.files[f].pages.insert(c.index, c.held);
                self.words[c.held as usize] = 0;
                Outcome::Moved(if touches { Found } else { Unslot })
            }
            Restore => { self.free.push(c.held); self.resv += 1; Outcome::Moved(if touches { Leave } else { Unslot }) }
            Found => {
                if c.index >= self.files[f].size { return go(c, Leave, Answer::Beyond); }
                if !grant { return go(c, Leave, Answer::NoMemory); }
                let frame = self.files[f].page(c.index).expect("a page");
                self.tasks[at].entries.insert(c.vpn, frame);
                let answer = self.access(c, frame);
                go(c, Leave, answer)
            }
            Enter => {
                self.tasks[at].mappings.insert(c.base, Mapping { base: c.base, file: c.file, from: c.from, len: c.len });
                self.files[f].size = self.files[f].size.max(c.from + c.len);
                go(c, Leave, Answer::Mapped(c.base))
            }
            Extend => { self.files[f].size = self.files[f].size.max(c.from + c.len); go(c, Leave, Answer::Done) }
            Unmap => {
                self.tasks[c.task as usize - 1].clear_index(c.file, c.index);
                c.task += 1;
                Outcome::Moved(if c.task as usize <= self.tasks.len() { Unmap } else { Evict })
            }
            Evict => {
                c.held = self.files[f].pages.remove(&c.index).expect("a page");
                c.evicted += 1;
                Outcome::Moved(if c.kind == Kind::Punch { Delete } else { Free })
            }
            Delete => { c.denied = !self.files[f].delete(grant, c.index); Outcome::Moved(Free) }
            Free => {
                self.free.push(c.held);
                if c.kind == Kind::Punch {
                    if c.denied { self.resv += 1 } else { self.used -= 1 }
                }
                Outcome::Moved(Unslot)
            }
            Unslot => {
                let slot = self.slot(c);
                self.slots[slot] = None;
                match c.kind {
                    Kind::Truncate if c.index > c.len => { c.index -= 1; Outcome::Moved(Want) }
                    Kind::Truncate => Outcome::Moved(Tail),
                    Kind::Alloc if c.answer.is_some() => Outcome::Moved(Leave),
                    _ if c.index + 1 < c.from + c.len => { c.index += 1; Outcome::Moved(if c.kind == Kind::Alloc { Head } else { Want }) }
                    Kind::Alloc if !c.keep => Outcome::Moved(Extend),
                    _ => go(c, Leave, Answer::Done),
                }
            }
            Size => {
                let end = self.files[f].pages.keys().next_back().map_or(0, |i| i + 1);
                let top = self.files[f].size.max(end);
                self.files[f].size = c.len;
                if top > c.len { c.index = top - 1; Outcome::Moved(Want) } else { Outcome::Moved(Tail) }
            }
            Tail => { c.excess = self.files[f].tail(c.len) - c.evicted; Outcome::Moved(Settle) }
            Clear => { self.tasks[at].clear(c.base); Outcome::Moved(Drop) }
            Drop => {
                self.tasks[at].mappings.remove(&c.base);
                if c.kind == Kind::Exit { self.next_mapping(at, c) } else { Outcome::Ended(Answer::Done) }
            }
            Leave => {
                if touches { let slot = self.slot(c); self.slots[slot] = None } else if c.kind != Kind::Exit { self.locks[f] = None }
                Outcome::Ended(c.answer.unwrap_or(Answer::Done))
            }
        }
    }

    /// By whom the task's next step would be blocked.
    pub fn blocker(&self, t: u32) -> Option<u32> {
        let task = &self.tasks[t as usize - 1];
        let (call, killed) = (task.call?, task.life == Life::Killed);
        match (call.phase, call.kind) {
            (Phase::Start, Kind::Map | Kind::MapNoReserve | Kind::Alloc | Kind::Punch | Kind::Truncate) => {
                let end = if call.kind == Kind::Truncate { u64::from(call.len) } else { u64::from(call.from) + u64::from(call.len) };
                let is_bad = end > u64::from(LIMIT) || call.kind != Kind::Truncate && call.len == 0;
                if is_bad || killed { None } else { *self.locks.get(call.file as usize)? }
            }
            (Phase::Want, Kind::Load | Kind::Store | Kind::Alloc) if killed => None,
            (Phase::Want, _) => self.slots[self.slot(&call)],
            _ => None,
        }
    }

    fn start(&mut self, t: u32, killed: bool, c: &mut Call) -> Outcome {
        if c.file as usize >= self.files.len() { return Outcome::Ended(Answer::BadFile); }
        let bad = if c.kind == Kind::Truncate { c.len > LIMIT } else { c.len == 0 || u64::from(c.from) + u64::from(c.len) > u64::from(LIMIT) };
        if bad { return Outcome::Ended(Answer::BadRange); }
        if killed { return Outcome::Ended(if c.kind == Kind::Alloc { Answer::Interrupted } else { Answer::Killed }); }
        if let Some(holder) = self.locks[c.file as usize] { return Outcome::Blocked(holder); }
        self.locks[c.file as usize] = Some(t);
        c.index = c.from;
        Outcome::Moved(match c.kind { Kind::Alloc => Phase::Head, Kind::Punch => Phase::Want, Kind::Truncate => Phase::Size, _ => Phase::Room })
    }

    fn next_mapping(&self, at: usize, c: &mut Call) -> Outcome {
        match self.tasks[at].mappings.keys().next() {
            Some(&base) => { c.base = base; Outcome::Moved(Phase::Clear) }
            None => Outcome::Moved(Phase::Leave),
        }
    }

    fn slot(&self, c: &Call) -> usize { (c.index as usize + 31 * c.file as usize) % self.slots.len() }

    fn access(&mut self, c: &Call, frame: u32) -> Answer {
        if c.kind == Kind::Store { self.words[frame as usize] = c.word; Answer::Done } else { Answer::Word(self.words[frame as usize]) }
    }

    /// Whom the task's next step would be blocked by.
    pub fn waits_for(&self, t: u32) -> Option<u32> {
        let task = &self.tasks[t as usize - 1];
        let c = task.call.as_ref()?;
        let killed = task.life == Life::Killed;
        let locks = !matches!(c.kind, Kind::Unmap | Kind::Exit);
        let bad = match c.kind {
            Kind::Truncate => c.len > LIMIT,
            _ => c.len == 0 || u64::from(c.from) + u64::from(c.len) > u64::from(LIMIT),
        };
        match c.phase {
            Phase::Want if killed && !matches!(c.kind, Kind::Punch | Kind::Truncate) => None,
            Phase::Want => self.slots[self.slot(c)],
            Phase::Start if locks && !bad && !killed => *self.locks.get(c.file as usize)?,
            _ => None,
        }
    }

    pub fn begin(&mut self, t: u32, call: Call) -> Outcome {
        let task = match (t as usize).checked_sub(1).and_then(|at| self.tasks.get_mut(at)) { Some(task) => task, None => return Outcome::NotAlive };
        if task.life == Life::Dead { return Outcome::NotAlive; }
        if task.call.is_some() { return Outcome::InCall; }
        if task.life == Life::Killed && call.kind != Kind::Exit { return Outcome::NotAlive; }
        task.call = Some(call);
        Outcome::Begun
    }

    pub fn kill(&mut self, t: u32) -> Outcome {
        match (t as usize).checked_sub(1).and_then(|at| self.tasks.get_mut(at)) {
            Some(task) if task.life == Life::Alive => { task.life = Life::Killed; Outcome::Marked }
            _ => Outcome::NotAlive,
        }
    }
    /// How many frames there are that aren't retired.
    pub fn frames(&self) -> u32 { (self.words.len() - self.retired.len()) as u32 }

    pub fn resize(&mut self, n: u32) -> Outcome {
        if n == 0 || n > MOST_FRAMES { return Outcome::BadSize; }
        let frames = self.frames();
        for _ in frames..n {
            let frame = self.retired.pop().unwrap_or_else(|| {
                self.words.push(0);
                self.words.len() as u32 - 1
            });
            self.free.push(frame);
        }
        let unreserved = self.free.len() as u32 - self.resv;
        for _ in 0..frames.saturating_sub(n).min(unreserved) { self.retired.extend(self.free.pop()) }
        Outcome::Resized(self.frames())
    }
}

impl Call {
    /// A call that hasn't begun; what its operation doesn't have is 0.
    pub fn new(kind: Kind) -> Self {
        let phase = if matches!(kind, Kind::Load | Kind::Store) { Phase::Look } else { Phase::Start };
        Call {
            kind, phase, file: 0, from: 0, len: 0, keep: false, vpn: 0, word: 0, index: 0, missing: 0, excess: 0, base: 0,
            held: 0, task: 1, denied: false, evicted: 0, answer: None,
        }
    }
}
