//! Explains a trace as `hugepool explain` does, with nothing proved. What is owed is read off the counts: the reserve count less
//! the reserved indices without a page, over all files.
use plain::text::{event, header, outcome_words, tell_state};
use plain::{Call, Event, Kind, LIMIT, Outcome, Phase, Pool, Sizes, WORDS};
use std::io::{self, BufWriter, Read, Write};

// the column of a task: 0 where the pool has no such task
fn column(tasks: u32, event: &Event) -> usize {
    let task = match event {
        Event::Begin(task, _) | Event::Step(task, _) | Event::Kill(task) => *task,
        Event::Resize(_) => 0,
    };
    if task <= tasks { task as usize } else { 0 }
}

fn slot(slots: u32, file: u32, index: u32) -> String {
    format!("slot {}, file {file} index {index}", (u64::from(index) + 31 * u64::from(file)) % u64::from(slots))
}

// what the call's next step takes
fn wanted(slots: u32, call: &Call) -> String {
    match (call.phase, call.kind) {
        (Phase::Start, Kind::Unmap | Kind::Exit) => "nothing".to_owned(),
        (Phase::Start, _) => format!("lock of file {}", call.file),
        (Phase::Want, _) => slot(slots, call.file, call.index),
        _ => "nothing".to_owned(),
    }
}

// what the call has taken and not left
fn held(slots: u32, call: &Call) -> String {
    use Phase::*;
    let locks = !matches!(call.kind, Kind::Load | Kind::Store | Kind::Unmap | Kind::Exit) && call.phase != Start;
    let touches = matches!(call.kind, Kind::Load | Kind::Store);
    let in_slot = match call.kind {
        Kind::Load | Kind::Store => !matches!(call.phase, Look | Want),
        Kind::Alloc => !matches!(call.phase, Start | Head | Want | Extend | Leave),
        Kind::Punch => !matches!(call.phase, Start | Want | Leave),
        Kind::Truncate => !matches!(call.phase, Start | Size | Want | Tail | Settle | Leave),
        _ => false,
    };
    debug_assert!(!(touches && locks));
    let lock = format!("lock of file {}", call.file);
    match (locks, in_slot) {
        (false, false) => "nothing".to_owned(),
        (true, false) => lock,
        (false, true) => slot(slots, call.file, call.index),
        (true, true) => format!("{lock} and {}", slot(slots, call.file, call.index)),
    }
}

// the table of what a call owes, by its phase
fn owes(call: &Call) -> i64 {
    let (missing, excess, evicted) = (i64::from(call.missing), i64::from(call.excess), i64::from(call.evicted));
    match (call.kind, call.phase) {
        (Kind::Map, Phase::Accounted) => missing,
        (Kind::Map, Phase::Settle) => excess,
        (Kind::Load | Kind::Store | Kind::Alloc, Phase::Taken) => missing - 1,
        (Kind::Load | Kind::Store | Kind::Alloc, Phase::Committed | Phase::Restore) => -1,
        (Kind::Punch, Phase::Delete) => -1,
        (Kind::Punch, Phase::Free) => -i64::from(call.denied),
        (Kind::Truncate, Phase::Settle) => excess,
        (Kind::Truncate, Phase::Start | Phase::Size | Phase::Leave) => 0,
        (Kind::Truncate, _) => -evicted,
        _ => 0,
    }
}

// the reserve count less the reserved indices without a page
fn owed(pool: &Pool) -> i64 {
    let vacant: i64 = pool.files.iter().map(|file| i64::from(file.reserved()) - file.pages.len() as i64).sum();
    i64::from(pool.resv) - vacant
}

// whether the call has its slot, or wants it
fn works(call: &Call) -> bool {
    use Phase::*;
    match call.kind {
        Kind::Load | Kind::Store => call.phase != Look,
        Kind::Alloc => !matches!(call.phase, Start | Head | Extend | Leave),
        Kind::Punch => !matches!(call.phase, Start | Leave),
        Kind::Truncate => !matches!(call.phase, Start | Size | Tail | Settle | Leave),
        _ => false,
    }
}

fn blockers(pool: &Pool) -> Vec<Option<u32>> {
    (1..=pool.tasks.len() as u32).map(|task| pool.blocker(task)).collect()
}

// the tasks that wait for another than before
fn changes(sizes: &Sizes, pool: &Pool, before: &[Option<u32>], after: &[Option<u32>]) -> String {
    let told = |(at, (before, after)): (usize, (&Option<u32>, &Option<u32>))| match after {
        _ if before == after => String::new(),
        None => format!("  task {} waits no more", at + 1),
        Some(holder) => {
            let call = pool.tasks[at].call.expect("a call in flight");
            format!("  task {} waits for {holder}: {}", at + 1, wanted(sizes.slots, &call))
        }
    };
    before.iter().zip(after).enumerate().map(told).collect()
}

struct Row {
    column: usize,
    cell: String,
    counts: String,
}

fn run(sizes: &Sizes, pool: &mut Pool, lines: &[&str]) -> Vec<Row> {
    let mut before = blockers(pool);
    lines
        .iter()
        .map(|line| {
            let happens = event(line.as_bytes()).expect("an event");
            let column = column(sizes.tasks, &happens);
            let told = match pool.event(happens) {
                Outcome::Blocked(holder) => {
                    let call = pool.tasks[column - 1].call.expect("a call in flight");
                    format!("blocked by {holder}: {}", wanted(sizes.slots, &call))
                }
                Outcome::Moved(phase) => {
                    let call = pool.tasks[column - 1].call.filter(works);
                    outcome_words(&Outcome::Moved(phase)) + &call.map_or(String::new(), |call| format!(", index {}", call.index))
                }
                outcome => outcome_words(&outcome),
            };
            let used = pool.quota.map_or(String::new(), |_| format!("  {:>4}", pool.used));
            let after = blockers(pool);
            let waits = changes(sizes, pool, &before, &after);
            before = after;
            let counts = format!("{:>4}  {:>4}  {:>4}{used}{waits}", pool.free.len(), pool.resv, owed(pool));
            Row { column, cell: format!("{line}: {told}"), counts }
        })
        .collect()
}

fn main() -> io::Result<()> {
    let mut text = String::new();
    io::stdin().read_to_string(&mut text)?;
    let lines: Vec<&str> = text.lines().collect();
    let sizes = header(lines[0].as_bytes()).expect("a header");
    let mut pool = Pool::new(&sizes);
    let rows = run(&sizes, &mut pool, &lines[1..]);
    let mut widths = vec![0; sizes.tasks as usize + 1];
    for row in &rows {
        widths[row.column] = widths[row.column].max(row.cell.len() + 1);
    }
    let shown: Vec<usize> = (0..widths.len()).filter(|column| widths[*column] > 0).collect();
    let mut out = BufWriter::new(io::stdout().lock());
    let title = |column: usize| if column == 0 { "pool".to_owned() } else { format!("task {column}") };
    let across = |word: &dyn Fn(usize) -> String| -> String {
        shown.iter().map(|column| format!("{:<width$} ", word(*column), width = widths[*column])).collect()
    };
    let used = if sizes.quota.is_some() { "  used" } else { "" };
    writeln!(out, "   line  {}free  resv  owed{used}", across(&title))?;
    for (at, row) in rows.iter().enumerate() {
        let cells = across(&|column| if column == row.column { row.cell.clone() } else { String::new() });
        writeln!(out, "{:>7}  {cells}{}", at + 2, row.counts)?;
    }
    for (at, task) in pool.tasks.iter().enumerate() {
        if let Some(call) = &task.call {
            let (held, wanted) = (held(sizes.slots, call), wanted(sizes.slots, call));
            writeln!(out, "task {} is at {}: holds {held}, wants {wanted}, owes {}", at + 1, WORDS[call.phase as usize], owes(call))?;
        }
    }
    tell_state(&mut out, &pool)?;
    debug_assert!(LIMIT == 4096);
    out.flush()
}
