//! The command line: which lists are made, how many, by how many threads, and what is said of them.

use crate::counts::{Counts, Kind};
use crate::desk::{touched, Clerk, Desk, Library};
use crate::plan::Tables;
use crate::{book, damage, layout, lent, level, limits, lists};
use second_simulator::bytes::unhex;
use second_simulator::calls::{Call, Machine};
use second_simulator::gen::{self, Step};
use second_simulator::list::Lent;
use second_simulator::rng::Rng;
use std::cell::RefCell;
use std::path::PathBuf;
use std::process::ExitCode;
use std::rc::Rc;
use std::sync::atomic::{AtomicU64, Ordering::Relaxed};
use std::time::{Duration, Instant, SystemTime};

const USAGE: &str = "usage: compare [--calls COUNT] [--seed SEED] [--jobs JOBS] [--from UNIT] [--folder FOLDER] [--counts FILE] [--book-alone]
       compare replay FILE..";

struct Arguments {
    calls: u64,
    /// from the clock if none is given
    seed: Option<u64>,
    jobs: u64,
    /// the number of the first unit
    from: u64,
    /// where the list of a difference is written
    folder: PathBuf,
    /// where the counts are written, if anywhere
    counts: Option<PathBuf>,
    /// lists of the run book only, with the simulator left out
    book_alone: bool,
    /// these lists are replayed
    replay: bool,
    files: Vec<PathBuf>,
}

fn arguments() -> Option<Arguments> {
    let mut a = Arguments {
        calls: 100_000_000, seed: None, jobs: 2, from: 0, folder: PathBuf::from("."), counts: None, book_alone: false, replay: false, files: Vec::new(),
    };
    let mut words = std::env::args().skip(1).peekable();
    if words.peek().map(String::as_str) == Some("replay") {
        words.next();
        a.replay = true;
    }
    while let Some(word) = words.next() {
        match word.as_str() {
            "--calls" => a.calls = words.next()?.replace(',', "").parse().ok()?,
            "--seed" => a.seed = Some(words.next()?.parse().ok()?),
            "--jobs" => a.jobs = words.next()?.parse().ok().filter(|jobs| (1..=64).contains(jobs))?,
            "--from" => a.from = words.next()?.parse().ok()?,
            "--folder" => a.folder = words.next()?.into(),
            "--counts" => a.counts = Some(words.next()?.into()),
            "--book-alone" => a.book_alone = true,
            file if a.replay && !file.starts_with('-') => a.files.push(file.into()),
            _ => return None,
        }
    }
    Some(a)
}

/// Units of one round, by kind: 20 of some 400 calls each.
const ROUND: [(Kind, u64); 5] = [(Kind::Book, 10), (Kind::Sound, 3), (Kind::Limits, 4), (Kind::Damage, 2), (Kind::Lengths, 1)];
/// The first list of every so many rounds is a long one.
const LONG: u64 = 20;

/// The random numbers of a unit.
fn of_unit(seed: u64, number: u64) -> Rng { Rng::new(seed ^ number.wrapping_mul(0xd6e8_feb8_6659_fd93)) }

/// A unit is one list of some 400 calls, or shorter ones that together have as many, and a plan table. It is made of the seed and its number alone, so that any
/// unit can be made again.
fn unit(clerk: &Clerk, tables: &mut Tables, seed: u64, number: u64) {
    let mut rng = of_unit(seed, number);
    let made = rng.next();
    let name = |kind: &str| format!("seed {seed}, unit {number} ({kind})");
    let table = tables.one(&name("plan"), rng.next());
    *clerk.0.borrow_mut().counts.tables.entry(table).or_default() += 1;

    let units: u64 = ROUND.iter().map(|(_, count)| count).sum();
    let (round, mut place) = (number / units, number % units);
    let mut of_kind = 0;
    while place >= ROUND[of_kind].1 {
        place -= ROUND[of_kind].1;
        of_kind += 1;
    }
    let (mut kind, count) = ROUND[of_kind];
    if number % (units * LONG) == 0 { kind = Kind::LongBook; }
    let name = name(kind.name());
    match kind {
        Kind::Book => book::list(clerk, kind, &name, made, 400),
        Kind::LongBook => book::list(clerk, kind, &name, made, 10_000),
        Kind::Sound => lists::sound(&mut clerk.0.borrow_mut(), &name, made),
        Kind::Limits => limits::unit(&mut clerk.0.borrow_mut(), &name, made),
        Kind::Damage => damage::unit(&mut clerk.0.borrow_mut(), &name, made, round * count + place),
        Kind::Lengths => lists::lengths(&mut clerk.0.borrow_mut(), &name, made),
    }
}

/// A list of the run book with the simulator left out, for a test of that checker.
fn book_alone(clerk: &Clerk, seed: u64, number: u64) {
    let made = of_unit(seed, number).next();
    book::list(clerk, Kind::Book, &format!("seed {seed}, list {number} (the run book alone)"), made, 400);
}

fn compare(library: Library, a: &Arguments) -> ExitCode {
    let clock = SystemTime::now().duration_since(SystemTime::UNIX_EPOCH).map_or(1, |d| d.as_nanos() as u64 % 1_000_000_000);
    let seed = a.seed.unwrap_or(clock);
    println!("seed {seed}: {} calls, jobs {}", a.calls, a.jobs);
    let began = Instant::now();
    let (next, made, ended) = (AtomicU64::new(a.from), AtomicU64::new(0), AtomicU64::new(0));
    let work = || {
        let clerk = Clerk(Rc::new(RefCell::new(Desk::new(library, Some(&a.folder), a.book_alone))));
        let mut tables = Tables::new(library, &a.folder);
        let mut before = 0;
        while made.load(Relaxed) < a.calls {
            let number = next.fetch_add(1, Relaxed);
            if a.book_alone { book_alone(&clerk, seed, number); } else { unit(&clerk, &mut tables, seed, number); }
            let now = clerk.0.borrow().counts.total();
            made.fetch_add(now - before, Relaxed);
            before = now;
        }
        ended.fetch_add(1, Relaxed);
        let counts = clerk.0.borrow().counts.clone();
        counts
    };
    let all = std::thread::scope(|scope| {
        let workers: Vec<_> = (0..a.jobs).map(|_| scope.spawn(work)).collect();
        // Progress each minute and each ten million calls. A call that never returns is told by a count that stands still.
        let (mut said, mut at, mut moved, mut last) = (Instant::now(), 0, Instant::now(), 0);
        while ended.load(Relaxed) < a.jobs && !workers.iter().all(|w| w.is_finished()) {
            std::thread::sleep(Duration::from_millis(50));
            let now = made.load(Relaxed);
            if now != last { (last, moved) = (now, Instant::now()); }
            if moved.elapsed() > Duration::from_secs(300) {
                println!("no unit has ended for five minutes; the last that was begun is {} of seed {seed}", next.load(Relaxed) - 1);
                std::process::exit(1);
            }
            if now / 10_000_000 > at || said.elapsed() > Duration::from_secs(60) {
                (at, said) = (now / 10_000_000, Instant::now());
                println!("{now} calls agree, {} s", began.elapsed().as_secs());
            }
        }
        let mut all = Counts::default();
        for worker in workers {
            match worker.join() { Ok(counts) => all.add(&counts), Err(_) => return None }
        }
        Some(all)
    });
    let Some(all) = all else {
        println!("stopped by an error of the comparison or of the simulator (above); the last unit that was begun is {} of seed {seed}", next.load(Relaxed) - 1);
        return ExitCode::FAILURE;
    };
    if a.book_alone {
        println!("seed {seed}: {} calls agree with the run book alone", all.total());
        return ExitCode::SUCCESS;
    }
    print!("{}", all.text());
    if let Some(file) = &a.counts {
        let text: String = all.lines().iter().map(|(name, count)| format!("{name}: {count}\n")).collect();
        if let Err(e) = std::fs::write(file, text) {
            println!("{}: {e}", file.display());
            return ExitCode::FAILURE;
        }
    }
    let seconds = began.elapsed().as_secs_f64();
    let (total, tables) = (all.total(), all.tables.values().sum::<u64>());
    println!(
        "seed {seed}: {total} calls in {} lists and {tables} plan tables agree with the second simulator, {seconds:.0} s, {:.0} calls a second and job",
        all.lists.iter().sum::<u64>(), total as f64 / seconds / a.jobs as f64
    );
    ExitCode::SUCCESS
}

/// The steps of a list that was written.
fn steps(text: &str) -> Option<Vec<Step>> {
    let mut all = Vec::new();
    for line in text.lines() {
        let words: Vec<&str> = line.split(' ').collect();
        match words[0] {
            "level" => {}
            "image" => all.push(Step::Image(unhex(words.get(1)?)?)),
            _ => {
                let arrow = words.iter().position(|w| *w == "->").filter(|at| *at >= 2)?;
                all.push(Step::Call(Lent { call: Call::from_words(&words[..arrow - 1])?, reply: unhex(words[arrow - 1])? }));
            }
        }
    }
    Some(all)
}

/// Replays lists: against what is written in them, then against the simulator and, where a list begins with an open that is done, against the run book.
fn replay(library: Library, a: &Arguments) -> ExitCode {
    for file in &a.files {
        let name = file.display().to_string();
        let Some((text, steps)) = std::fs::read_to_string(file).ok().and_then(|text| steps(&text).map(|steps| (text, steps))) else {
            println!("{name} is no list of calls");
            return ExitCode::FAILURE;
        };
        let mut clerk = Clerk(Rc::new(RefCell::new(Desk::new(library, None, false))));
        let mut image = Vec::new();
        let calls = steps.iter().filter(|step| matches!(step, Step::Call(_))).count();
        // Once for every place of the buffers that the first call has.
        for place in 0..lent::PLACES {
            clerk.0.borrow_mut().place_and_seal(place);
            for step in &steps {
                match step {
                    Step::Image(i) => {
                        image.clone_from(i);
                        clerk.0.borrow_mut().begin(Kind::Book, &name, &image);
                    }
                    Step::Call(lent) => { clerk.call(&lent.call, &mut image, &mut lent.reply.clone()); }
                }
            }
        }
        if gen::list_text(level(), &steps) != text {
            println!("{name}: the simulator gives other numbers, replies or images than are written there");
            return ExitCode::FAILURE;
        }
        let book = match book::replay(&clerk, &name, &steps) {
            None => "",
            Some(Ok(())) => ", and so does the run book",
            Some(Err(e)) => {
                println!("{name}: the run book: {e}");
                return ExitCode::FAILURE;
            }
        };
        println!("{name}: {calls} calls agree{book}");
    }
    ExitCode::SUCCESS
}

pub fn run(library: Library) -> ExitCode {
    layout::check();
    lent::on_touch(touched);
    match arguments() {
        Some(a) if a.replay && !a.files.is_empty() => replay(library, &a),
        Some(a) if !a.replay => compare(library, &a),
        _ => {
            println!("{USAGE}");
            ExitCode::from(2)
        }
    }
}
