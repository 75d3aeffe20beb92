//! Explores a script as `hugepool explore` does, with nothing proved: `explore --seed N --runs N --deny N --kill N`.
//! A plain loop on one thread: the same generator, the same turns, the same lines.
use plain::text::{event, header};
use plain::{Call, Event, Life, Outcome, Pool, Sizes};
use std::io::{BufWriter, Read, Write};

/// PCG with 64 bits of state and words of 32, seeded by a number as rand's `seed_from_u64` does.
struct Pcg {
    state: u64,
    increment: u64,
}

fn word_of(state: u64) -> u32 {
    ((((state >> 18) ^ state) >> 27) as u32).rotate_right((state >> 59) as u32)
}

impl Pcg {
    fn seeded(mut seed: u64) -> Self {
        let mut words = [0; 4];
        for word in &mut words {
            seed = seed.wrapping_mul(6_364_136_223_846_793_005).wrapping_add(11_634_580_027_462_260_723);
            *word = u64::from(word_of(seed));
        }
        let increment = (words[2] | words[3] << 32) | 1;
        let mut pcg = Pcg { state: (words[0] | words[1] << 32).wrapping_add(increment), increment };
        pcg.word();
        pcg
    }

    fn word(&mut self) -> u32 {
        let old = self.state;
        self.state = old.wrapping_mul(6_364_136_223_846_793_005).wrapping_add(self.increment);
        word_of(old)
    }
}

/// A call, and of which tasks how many calls have to end before it begins.
#[derive(Clone)]
struct Waiting {
    call: Call,
    after: Vec<(usize, usize)>,
}

struct Script {
    sizes: Sizes,
    queues: Vec<Vec<Waiting>>,
}

fn read_script() -> Script {
    let mut text = String::new();
    std::io::stdin().read_to_string(&mut text).expect("a script");
    let mut lines = text.lines();
    let first = lines.next().expect("a header");
    let first = first.strip_prefix("script ").map_or(first.to_string(), |sizes| format!("pool {sizes}"));
    let sizes = header(first.as_bytes()).expect("a header");
    let mut queues: Vec<Vec<Waiting>> = vec![Vec::new(); sizes.tasks as usize];
    let mut after = Vec::new();
    for line in lines {
        if let Some(task) = line.strip_prefix("after ") {
            let task: usize = task.parse().expect("a task");
            if let Some(queue) = task.checked_sub(1).and_then(|at| queues.get(at)) {
                after.push((task - 1, queue.len()));
            }
            continue;
        }
        let (task, call) = match event(line.as_bytes()) { Some(Event::Begin(task, call)) => (task, call), _ => panic!("no call: {line}") };
        if (1..=sizes.tasks).contains(&task) {
            queues[task as usize - 1].push(Waiting { call, after: after.clone() });
        }
        after.clear();
    }
    Script { sizes, queues }
}

fn explore_one(script: &Script, out: &mut impl Write, seed: u64, run: u32, deny: u32, kill: u32) -> std::io::Result<()> {
    let tasks = script.sizes.tasks;
    let mut pool = Pool::new(&script.sizes);
    let mut made = vec![0; tasks as usize];
    let mut rng = Pcg::seeded(seed.wrapping_add(u64::from(run)));
    let mut runnable = Vec::new();
    let mut turns = 0;
    let finish = loop {
        runnable.clear();
        for t in 1..=tasks {
            let at = t as usize - 1;
            let ended = |other: usize| made[other] - usize::from(pool.tasks[other].call.is_some());
            let can = if pool.tasks[at].call.is_some() {
                pool.waits_for(t).is_none()
            } else {
                script.queues[at].get(made[at]).map_or(false, |next| next.after.iter().all(|(other, calls)| ended(*other) >= *calls))
            };
            if can {
                runnable.push(t);
            }
        }
        if runnable.is_empty() {
            let done = (0..tasks as usize).all(|at| pool.tasks[at].call.is_none() && made[at] == script.queues[at].len());
            break if done { "finished" } else { "stuck" };
        }
        if turns == 1_000_000 {
            break "limit";
        }
        let t = runnable[rng.word() as usize % runnable.len()];
        let at = t as usize - 1;
        let killed = kill != 0 && rng.word() % 1000 < kill;
        let _: Outcome = if killed && pool.tasks[at].life == Life::Alive {
            pool.kill(t)
        } else if pool.tasks[at].call.is_some() {
            pool.step(t, rng.word() % 1000 >= deny)
        } else {
            made[at] += 1;
            pool.begin(t, script.queues[at][made[at] - 1].call)
        };
        turns += 1;
    };
    writeln!(out, "run {run} {finish} turns {turns} free {} resv {}", pool.free.len(), pool.resv)
}

fn main() -> std::io::Result<()> {
    let words: Vec<String> = std::env::args().collect();
    let option = |name: &str, default: u64| {
        words.iter().position(|w| w == name).map_or(default, |at| words[at + 1].parse().expect("a number"))
    };
    let script = read_script();
    let mut out = BufWriter::new(std::io::stdout().lock());
    for run in 0..option("--runs", 10) as u32 {
        explore_one(&script, &mut out, option("--seed", 1), run, option("--deny", 0) as u32, option("--kill", 0) as u32)?;
    }
    out.flush()
}
