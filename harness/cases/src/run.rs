//! The run: every group over the threads, what was seen, and what differs.

use std::fmt::Display;
use std::sync::Mutex;
use std::sync::atomic::{AtomicU64, Ordering};
use std::time::Instant;

use crate::biases;
use crate::case::{Case, Format};
use crate::check::{Bench, Oracle, Seen, Value};
use crate::exhaustive::{SPACES, Space};
use crate::extended;
use crate::habits::Habit;
use crate::lists;
use crate::refused::refused;
use crate::rng::Rng;
use crate::shrink::shrink;
use crate::table::{self, Table};
use crate::table_check::TableBench;
use crate::tables;
use crate::tally::{BINARY64, Tally, report, report_group};
use crate::tens;

pub struct Options {
    pub seed: u64,
    /// How many cases are drawn in all groups together, about.
    pub cases: u64,
    /// One of how many exhaustive cases is taken.
    pub stride: u64,
    pub threads: usize,
}

/// A run of so many drawn cases is to reach all that is listed in `Tally::missed`; a shorter one only says what it missed.
const ENOUGH: u64 = 1_000_000;

/// Differences that are shrunk and shown, at most, in each group.
const SHOWN: usize = 5;

/// The formats that a group draws from.
#[derive(Clone, Copy)]
enum Pool {
    All,
    /// Wide enough for a chain of passes.
    Long,
    /// So wide that the original walks many empty passes.
    Wide,
    /// With a bias; those of the other pools name none.
    Biased,
    /// Kind 4 alone.
    Extended,
}

struct Formats {
    all: Vec<Format>,
    long: Vec<Format>,
    wide: Vec<Format>,
    biased: Vec<Format>,
}

impl Formats {
    fn new(formats: &[Format]) -> Self {
        let (biased, all): (Vec<Format>, Vec<Format>) = formats.iter().partition(|format| format.bias.is_some());
        let at_least = |e: u64| all.iter().copied().filter(|format| format.exponent_bits() >= e).collect();
        Self { long: at_least(9), wide: at_least(16), all, biased }
    }

    /// A format of the pool; binary64, whose chains have known limits, comes more often.
    fn draw(&self, rng: &mut Rng, pool: Pool) -> Format {
        let formats = match pool {
            Pool::Extended => return extended::FORMAT,
            Pool::Biased => return rng.pick(&self.biased),
            Pool::Wide => return rng.pick(&self.wide),
            Pool::Long => &self.long,
            Pool::All => &self.all,
        };
        if rng.once_in(16) { BINARY64 } else { rng.pick(formats) }
    }
}

/// A call that is compared: of a byte entry, with or without its other, or of the entry of tables.
trait Call: Display + Sized {
    type Bench: Default;

    fn check(&self, bench: &mut Self::Bench, oracle: &Oracle) -> Result<Seen, String>;

    /// The smallest call that still differs.
    fn shrunk(self, differs: &mut dyn FnMut(&Self) -> bool) -> Self;

    fn count(&self, seen: &Seen, tally: &mut Tally);
}

impl<V: Value> Call for Case<V> {
    type Bench = Bench;

    fn check(&self, bench: &mut Bench, oracle: &Oracle) -> Result<Seen, String> {
        bench.check(self, oracle)
    }

    fn shrunk(self, differs: &mut dyn FnMut(&Self) -> bool) -> Self {
        shrink(self, differs)
    }

    fn count(&self, seen: &Seen, tally: &mut Tally) {
        V::count(self, seen, tally);
    }
}

impl Call for Table {
    type Bench = TableBench;

    fn check(&self, bench: &mut TableBench, oracle: &Oracle) -> Result<Seen, String> {
        bench.check(self, oracle)
    }

    fn shrunk(self, differs: &mut dyn FnMut(&Self) -> bool) -> Self {
        table::shrink(self, differs)
    }

    fn count(&self, seen: &Seen, tally: &mut Tally) {
        tally.add_table(self, seen);
    }
}

impl Call for Habit {
    type Bench = Bench;

    fn check(&self, bench: &mut Bench, oracle: &Oracle) -> Result<Seen, String> {
        Habit::check(self, bench, oracle)
    }

    fn shrunk(self, differs: &mut dyn FnMut(&Self) -> bool) -> Self {
        Habit(shrink(self.0, &mut |case| differs(&Habit(case.clone()))))
    }

    fn count(&self, seen: &Seen, tally: &mut Tally) {
        tally.add_habit(self, seen);
    }
}

struct Group<C> {
    name: &'static str,
    pool: Pool,
    draw: fn(&mut Rng, Format) -> C,
    /// How many cases, of so many that are drawn in all.
    count: fn(u64) -> u64,
    /// Cases that a thread takes at a time.
    portion: u64,
}

/// The groups in their order, which is part of what a case is drawn from. The cases of the three before the biases take long.
const GROUPS: [Group<Case>; 13] = [
    Group { name: "random lists", pool: Pool::All, draw: lists::random, count: |all| all * 290 / 1000, portion: 4096 },
    Group { name: "ties", pool: Pool::All, draw: lists::ties, count: |all| all * 200 / 1000, portion: 4096 },
    Group { name: "ties at the ends", pool: Pool::All, draw: lists::ties_at_the_ends, count: |all| all * 120 / 1000, portion: 4096 },
    Group { name: "chains of passes", pool: Pool::Long, draw: lists::chains, count: |all| all * 170 / 1000, portion: 4096 },
    Group { name: "cancellations", pool: Pool::All, draw: lists::cancellations, count: |all| all * 80 / 1000, portion: 4096 },
    Group { name: "specials", pool: Pool::All, draw: lists::specials, count: |all| all * 100 / 1000, portion: 4096 },
    Group { name: "refusals", pool: Pool::All, draw: refused, count: |all| all * 40 / 1000, portion: 4096 },
    Group { name: "many elements", pool: Pool::All, draw: lists::many, count: |all| all / 500, portion: 16 },
    Group { name: "wide gaps", pool: Pool::Wide, draw: lists::wide, count: |all| all / 20_000, portion: 1 },
    Group { name: "about 1,048,576 elements", pool: Pool::All, draw: lists::million, count: |all| 8 + all / 500_000, portion: 1 },
    Group { name: "named biases", pool: Pool::Biased, draw: biases::named, count: |all| all / 30, portion: 256 },
    Group { name: "named biases, refusals", pool: Pool::Biased, draw: biases::out_of_range, count: |all| all / 150, portion: 256 },
    Group { name: "the kind's own bias, named", pool: Pool::All, draw: biases::own, count: |all| all / 100, portion: 256 },
];

/// Each table is many sums: that of all cells, and those of its rows and columns.
const TABLES: [Group<Table>; 4] = [
    Group { name: "tables", pool: Pool::All, draw: tables::any, count: |all| all / 120, portion: 256 },
    Group { name: "tables, refusals", pool: Pool::All, draw: tables::refused, count: |all| all / 240, portion: 256 },
    Group { name: "tables, a bias named", pool: Pool::Biased, draw: tables::biased, count: |all| all / 400, portion: 256 },
    Group { name: "tables of about 1,048,576 cells", pool: Pool::All, draw: tables::million, count: |all| 8 + all / 4_000_000, portion: 1 },
];

const TENS: [Group<Case<u128>>; 2] = [
    Group { name: "values of ten bytes", pool: Pool::Extended, draw: tens::any, count: |all| all / 5, portion: 1024 },
    Group { name: "values of ten bytes, refusals", pool: Pool::Extended, draw: tens::refused, count: |all| all / 60, portion: 1024 },
];

/// Each is two calls.
const HABITS: [Group<Habit>; 2] = [
    Group { name: "mirrors and squares", pool: Pool::All, draw: Habit::draw, count: |all| all / 60, portion: 256 },
    Group { name: "mirrors and squares, a bias named", pool: Pool::Biased, draw: Habit::draw, count: |all| all / 240, portion: 256 },
];

/// One run's shared parts.
struct Run<'a> {
    options: &'a Options,
    oracle: &'a Oracle<'a>,
    formats: Formats,
}

impl Run<'_> {
    /// Checks the cases 0 to `count` - 1 over all threads.
    fn over_threads<C: Call>(&self, name: &str, count: u64, portion: u64, case: &(dyn Fn(u64) -> C + Sync)) -> Tally {
        let start = Instant::now();
        let next = AtomicU64::new(0);
        let found = Mutex::new(vec![]);
        let work = || {
            let mut bench = C::Bench::default();
            let mut tally = Tally::default();
            loop {
                let from = next.fetch_add(portion, Ordering::Relaxed);
                if from >= count {
                    return tally;
                }
                for number in from..(from + portion).min(count) {
                    self.one(&mut bench, &mut tally, number, case(number), &found);
                }
            }
        };
        let mut total = Tally::default();
        std::thread::scope(|scope| {
            let workers: Vec<_> = (0..self.options.threads).map(|_| scope.spawn(work)).collect();
            for worker in workers {
                total.merge(&worker.join().expect("a worker ends"));
            }
        });
        report_group(name, &total, start.elapsed().as_secs_f64());
        for text in found.into_inner().expect("no worker panics") {
            println!("{text}");
        }
        total
    }

    fn one<C: Call>(&self, bench: &mut C::Bench, tally: &mut Tally, number: u64, case: C, found: &Mutex<Vec<String>>) {
        match case.check(bench, self.oracle) {
            Ok(seen) => case.count(&seen, tally),
            Err(what) => {
                tally.cases += 1;
                tally.differences += 1;
                let mut found = found.lock().expect("no worker panics");
                if found.len() < SHOWN {
                    found.push(self.describe(bench, number, case, &what));
                }
            }
        }
    }

    /// The difference at its smallest input.
    fn describe<C: Call>(&self, bench: &mut C::Bench, number: u64, case: C, what: &str) -> String {
        let smallest = case.shrunk(&mut |case| case.check(bench, self.oracle).is_err());
        let now = smallest.check(bench, self.oracle).err().unwrap_or_default();
        format!("  DIFFERENCE in case {number}: {what}\n    smallest input: {smallest}\n    there: {now}")
    }

    fn space(&self, space: &Space) -> Tally {
        let seed = self.options.seed;
        let stride = self.options.stride;
        let offset = Rng::new(seed, 99, space.size()).below(stride);
        let count = (space.size() - offset).div_ceil(stride);
        self.over_threads(space.name, count, 1 << 12, &|number| space.case(seed, offset + number * stride))
    }

    fn group<C: Call>(&self, place: u64, group: &Group<C>) -> Tally {
        let draw = |number| {
            let mut rng = Rng::new(self.options.seed, place, number);
            let format = self.formats.draw(&mut rng, group.pool);
            (group.draw)(&mut rng, format)
        };
        self.over_threads(group.name, (group.count)(self.options.cases), group.portion, &draw)
    }
}

/// Runs every group. Returns whether all agrees and all was reached that a run is to reach.
pub fn run(options: &Options, oracle: &Oracle) -> bool {
    let start = Instant::now();
    let run = Run { options, oracle, formats: Formats::new(&oracle.formats) };
    let Formats { all, biased, .. } = &run.formats;
    println!("seed {}, {} formats and {} with a bias, {} threads", options.seed, all.len(), biased.len(), options.threads);
    let mut total = Tally::default();
    for space in &SPACES {
        total.merge(&run.space(space));
    }
    for (place, group) in GROUPS.iter().enumerate() {
        total.merge(&run.group(place as u64 + 1, group));
    }
    for (place, group) in TABLES.iter().enumerate() {
        total.merge(&run.group((GROUPS.len() + place) as u64 + 1, group));
    }
    for (place, group) in TENS.iter().enumerate() {
        total.merge(&run.group((GROUPS.len() + TABLES.len() + place) as u64 + 1, group));
    }
    for (place, group) in HABITS.iter().enumerate() {
        total.merge(&run.group((GROUPS.len() + TABLES.len() + TENS.len() + place) as u64 + 1, group));
    }
    report(&total, options.seed, start.elapsed().as_secs_f64());
    let missed = total.missed(&oracle.formats);
    for what in &missed {
        println!("NOT REACHED: {what}");
    }
    total.differences == 0 && (missed.is_empty() || options.cases < ENOUGH)
}
