//! Traces made by chance. Calls are simulated, so that most events are of use: a task begins a call where it has none, and
//! touches what it has mapped.
use crate::damage::damage;
use crate::random::Random;
use plain::text::event;
use plain::{LIMIT, Life, MOST_FRAMES, Outcome, Phase, Pool, Sizes, VPNS};
use std::fmt::Write;

/// How often, in a thousand inputs, is one about the limit of events, has a task no room left, and is one damaged.
const HUGE: u32 = 1;
const FULL: u32 = 30;
const DAMAGED: u32 = 400;

/// What one trace is like.
struct Habits {
    // so many tasks and files come up
    tasks: u32,
    files: u32,
    // indices from here on, and so many
    first: u32,
    span: u32,
    // so many steps of a call at once, at most
    burst: u32,
    // how often in a thousand events: a denied step where memory may be wanted, and elsewhere; a kill, a resize, an event out of
    // place, a number out of range
    deny: u32,
    idle_deny: u32,
    kill: u32,
    resize: u32,
    astray: u32,
    wrong: u32,
    // how often a call is about pages and not mappings
    pages: u32,
}

struct Maker<'a> { pool: Pool, sizes: Sizes, habits: Habits, text: String, events: u32, random: &'a mut Random }

fn sizes(random: &mut Random) -> Sizes {
    let frames = match random.below(6) {
        0 | 1 => random.within(1, 4),
        2 => random.within(1, 16),
        3 => random.within(1, 200),
        4 => MOST_FRAMES - random.below(2),
        _ => random.within(1, MOST_FRAMES),
    };
    let quota = match random.below(8) {
        0..=3 => None,
        4 => Some(random.within(0, 3)),
        5 => Some(frames - random.below(2)),
        6 => Some(random.within(0, 2 * frames)),
        _ => Some(65_536 - random.below(2)),
    };
    let (files, any_files) = (random.pick(&[1, 1, 2, 3, 16]), random.within(1, 16));
    let (slots, any_slots) = (random.pick(&[1, 2, 4, 64]), random.within(1, 64));
    let (tasks, any_tasks) = (random.pick(&[1, 2, 2, 3, 4, 64]), random.within(1, 64));
    let is_any = random.below(4) == 0;
    let of = |few, any| if is_any { any } else { few };
    Sizes { frames, files: of(files, any_files), slots: of(slots, any_slots), tasks: of(tasks, any_tasks), quota }
}

impl Habits {
    fn any(random: &mut Random, sizes: &Sizes) -> Self {
        let span = random.pick(&[1, 2, 3, 4, 4, 8, 8, 16, 64, 1000, LIMIT]);
        let first = match random.below(4) {
            0 | 1 => 0,
            2 => LIMIT - span,
            _ => random.within(0, LIMIT - span),
        };
        Habits {
            tasks: random.within(1, sizes.tasks),
            files: random.within(1, sizes.files),
            first,
            span,
            burst: random.pick(&[1, 2, 5, 20, 100, 20_000]),
            deny: random.pick(&[0, 0, 50, 200, 500]),
            idle_deny: random.pick(&[0, 0, 20, 200]),
            kill: random.pick(&[0, 0, 1, 10, 50]),
            resize: random.pick(&[0, 0, 5, 50]),
            astray: random.pick(&[0, 5, 50]),
            wrong: random.pick(&[0, 5, 100]),
            pages: random.pick(&[100, 300, 600]),
        }
    }
}

impl Maker<'_> {
    fn event(&mut self, text: &str) -> Outcome {
        self.events += 1;
        self.text.push_str(text);
        self.text.push('\n');
        self.pool.event(event(text.as_bytes()).expect("an event"))
    }

    fn file(&mut self) -> u32 {
        if self.random.happens(self.habits.wrong) { self.random.pick(&[self.sizes.files, u32::MAX]) } else { self.random.below(self.habits.files) }
    }

    fn index(&mut self) -> u32 {
        if self.random.happens(self.habits.wrong) { return self.random.pick(&[0, LIMIT - 1, LIMIT, LIMIT + 1, u32::MAX]); }
        self.habits.first + self.random.below(self.habits.span)
    }

    // a range as `FROM LEN`
    fn range(&mut self) -> String {
        if self.random.below(8) == 0 { return format!("{} {}", self.habits.first, self.habits.span); }
        let from = self.index();
        let room = (self.habits.first + self.habits.span).saturating_sub(from).max(1);
        let len = if self.random.happens(self.habits.wrong) {
            self.random.pick(&[0, LIMIT, LIMIT + 1, u32::MAX])
        } else if self.random.below(4) == 0 {
            room
        } else {
            1 + self.random.below(room.min(4))
        };
        format!("{from} {len}")
    }

    // the base and the length of one of the task's mappings
    fn mapping(&mut self, task: u32) -> Option<(u32, u32)> {
        let mappings = &self.pool.tasks[task as usize - 1].mappings;
        if mappings.is_empty() || self.random.happens(self.habits.wrong) { return None; }
        mappings.values().nth(self.random.place(mappings.len())).map(|it| (it.base, it.len))
    }

    fn page(&mut self, task: u32) -> u32 {
        match self.mapping(task) {
            Some((base, len)) if self.random.happens(self.habits.wrong) => base + len,
            Some((base, len)) => base + self.random.below(len),
            None => self.random.pick(&[0, 1, 7, VPNS - 1, VPNS, u32::MAX]),
        }
    }

    fn call(&mut self, task: u32) -> String {
        if self.pool.tasks[task as usize - 1].life == Life::Killed && self.random.below(2) == 0 { return "exit".to_string(); }
        if self.random.happens(3) { return "exit".to_string(); }
        if self.random.happens(self.habits.pages) {
            let word = self.random.pick(&["alloc", "allock", "punch", "punch", "trunc"]);
            let file = self.file();
            return if word == "trunc" { format!("trunc {file} {}", self.index()) } else { format!("{word} {file} {}", self.range()) };
        }
        match self.random.below(8) {
            0 | 1 => format!("map {} {}", self.file(), self.range()),
            2 => format!("mapn {} {}", self.file(), self.range()),
            3 => format!("unmap {}", self.mapping(task).map_or(self.random.pick(&[0, 1, VPNS]), |it| it.0)),
            4 => format!("load {}", self.page(task)),
            _ => {
                let word = if self.random.below(8) == 0 { u64::MAX } else { u64::from(self.random.below(100)) };
                format!("store {} {word}", self.page(task))
            }
        }
    }

    fn resize(&mut self) {
        let frames = self.pool.frames();
        let wanted = match self.random.below(8) {
            0 => self.random.pick(&[0, MOST_FRAMES, MOST_FRAMES + 1, u32::MAX]),
            1 => self.random.within(1, MOST_FRAMES),
            2..=4 => frames.saturating_sub(self.random.below(8)),
            _ => frames + self.random.below(8),
        };
        self.event(&format!("resize {wanted}"));
    }

    // an event of a task that isn't there, of one in a call that would begin one, and the like
    fn stray(&mut self) {
        let task = self.random.pick(&[0, 1, self.habits.tasks, self.sizes.tasks, self.sizes.tasks + 1, u32::MAX]);
        let event = match self.random.below(4) {
            0 => format!("step {task}"),
            1 => format!("deny {task}"),
            2 => format!("begin {task} exit"),
            _ => format!("begin {task} map {} {}", self.file(), self.range()),
        };
        self.event(&event);
    }

    // steps of a call until it ends or is blocked, or enough were made
    fn steps(&mut self, task: u32) {
        for _ in 0..self.random.within(1, self.habits.burst) {
            let phase = self.pool.tasks[task as usize - 1].call.map(|call| call.phase);
            let may_want = matches!(phase, Some(Phase::Room | Phase::Missing | Phase::Committed | Phase::Found | Phase::Delete));
            let often = if may_want { self.habits.deny } else { self.habits.idle_deny };
            let word = if self.random.happens(often) { "deny" } else { "step" };
            if !matches!(self.event(&format!("{word} {task}")), Outcome::Moved(_)) { return; }
        }
    }

    // the first task maps all of its pages, or all but a few
    fn fill(&mut self) {
        for k in 0..4 {
            let less = if k == 3 { self.random.below(3) } else { 0 };
            self.event(&format!("begin 1 mapn 0 0 {}", LIMIT - less));
            for _ in 0..4 { self.event("step 1"); }
        }
    }

    fn turn(&mut self) {
        let task = self.random.within(1, self.habits.tasks);
        if self.random.happens(self.habits.astray) {
            self.stray();
        } else if self.random.happens(self.habits.resize) {
            self.resize();
        } else if self.random.happens(self.habits.kill) {
            self.event(&format!("kill {task}"));
        } else if self.pool.tasks[task as usize - 1].call.is_some() {
            self.steps(task);
        } else {
            let call = self.call(task);
            self.event(&format!("begin {task} {call}"));
        }
    }
}

/// A trace of about so many events.
fn trace(random: &mut Random, events: u32) -> String {
    let sizes = sizes(random);
    let habits = Habits::any(random, &sizes);
    let Sizes { frames, files, slots, tasks, quota } = sizes;
    let mut text = format!("pool {frames} {files} {slots} {tasks}");
    if let Some(quota) = quota { write!(text, " {quota}").expect("memory"); }
    text.push('\n');
    let mut maker = Maker { pool: Pool::new(&sizes), sizes, habits, text, events: 0, random };
    if maker.random.happens(FULL) { maker.fill(); }
    while maker.events < events { maker.turn(); }
    maker.text
}

/// An input, and whether it was damaged.
pub fn input(random: &mut Random) -> (Vec<u8>, bool) {
    if random.happens(HUGE) {
        let mut text = trace(random, 100);
        let events = text.lines().count() - 1;
        let wanted = 999_999 + random.below(4) as usize;
        text.push_str(&"step 1\n".repeat(wanted - events));
        return (text.into_bytes(), false);
    }
    let is_damaged = random.happens(DAMAGED);
    let events = if is_damaged { random.pick(&[0, 3, 10, 30, 100]) } else { random.pick(&[20, 100, 300, 1000, 3000, 10_000]) };
    let text = trace(random, events).into_bytes();
    if is_damaged { (damage(text, random), true) } else { (text, false) }
}
