//! What the cases showed, counted.

use std::collections::HashMap;

use crate::case::{Case, Format};
use crate::check::Seen;
use crate::extended::{self, is_pseudo_denormal, is_unsupported};
use crate::habits::Habit;
use crate::refusals::no_format;
use crate::table::Table;

pub const BINARY64: Format = Format::plain([0, 11, 64]);

/// Longer chains are counted together.
const LONGEST: usize = 8;

/// What the cases of a group, or of all groups, showed.
#[derive(Default)]
pub struct Tally {
    pub cases: u64,
    rearranged: u64,
    /// By the number of the refusal; 0 counts the accepted.
    refusals: [u64; 8],
    /// Refused for the bias: no other condition of number 3 holds.
    biases: u64,
    /// The formats of the accepted cases.
    formats: HashMap<Format, u64>,
    /// By the setting and its value, without the precision.
    settings: [[u64; 8]; 7],
    /// The precisions of binary64 that came: a bit for each.
    precisions: u64,
    /// By the bit of the flag.
    flags: [u64; 8],
    /// By the side.
    sides: [u64; 4],
    /// Passes of sums and of products: 0 to 7, and more.
    passes: [[u64; LONGEST + 1]; 2],
    /// The same of binary64 alone, whose chains have known limits.
    binary64: [[u64; LONGEST + 1]; 2],
    most_passes: u64,
    /// Tables by the number of the refusal; 0 counts the accepted, which the first of `refusals` counts too.
    tables: [u64; 11],
    /// Accepted tables of each shape.
    shapes: [u64; SHAPES.len()],
    tens: Tens,
    /// Cases whose other was told, by kind: mirrors of sums, mirrors of dots, squares.
    habits: [[u64; 4]; HABITS.len()],
    pub differences: u64,
}

/// What the cases with values of ten bytes showed.
#[derive(Default)]
struct Tens {
    /// By the number of the refusal; 0 counts the accepted.
    refusals: [u64; 6],
    /// Refused for a bias: it is named beside E 15 and W 80.
    biases: u64,
    settings: [[u64; 8]; 7],
    /// A bit for each precision.
    precisions: u128,
    flags: [u64; 8],
    sides: [u64; 4],
    /// Passes of sums and of products: 0 to 7, and more.
    passes: [[u64; LONGEST + 1]; 2],
    /// Lists with an unsupported encoding; with a pseudo-denormal, taken as it is and as a zero.
    unsupported: u64,
    pseudo_denormals: [u64; 2],
}

impl Tens {
    fn add(&mut self, case: &Case<u128>, seen: &Seen) {
        match *seen {
            Seen::Refused(number) => {
                self.refusals[number as usize] += 1;
                self.biases += u64::from(number == 3 && case.format.numbers == extended::FORMAT.numbers);
            }
            Seen::Accepted { flags, passes, side, .. } => {
                self.refusals[0] += 1;
                for (counts, &value) in self.settings.iter_mut().zip(&case.settings) {
                    counts[value as usize] += 1;
                }
                self.precisions |= 1 << case.settings[7];
                for (bit, count) in self.flags.iter_mut().enumerate() {
                    *count += u64::from(flags >> bit & 1);
                }
                self.sides[usize::from(side)] += 1;
                self.passes[usize::from(case.is_product())][(passes as usize).min(LONGEST)] += 1;
                let some = |test: fn(u128) -> bool| u64::from(case.left.iter().chain(&case.right).any(|&value| test(value)));
                self.unsupported += some(is_unsupported);
                self.pseudo_denormals[case.settings[5] as usize] += some(is_pseudo_denormal);
            }
        }
    }

    fn merge(&mut self, other: &Tens) {
        add(&mut self.refusals, &other.refusals);
        self.biases += other.biases;
        self.precisions |= other.precisions;
        add(&mut self.flags, &other.flags);
        add(&mut self.sides, &other.sides);
        self.unsupported += other.unsupported;
        add(&mut self.pseudo_denormals, &other.pseudo_denormals);
        for (counts, more) in self.settings.iter_mut().zip(&other.settings) {
            add(counts, more);
        }
        for (counts, more) in self.passes.iter_mut().zip(&other.passes) {
            add(counts, more);
        }
    }

    /// Names what was not reached, each with its count.
    fn want(&self, want: &mut dyn FnMut(String, u64)) {
        for number in 1..=5 {
            want(format!("refusal {number} of ten bytes"), self.refusals[number]);
        }
        want("refusal 3 of a bias beside ten bytes".to_string(), self.biases);
        for (setting, values) in SETTINGS.into_iter().enumerate() {
            for value in 0..values {
                want(format!("setting {setting} of {value} with ten bytes"), self.settings[setting][value]);
            }
        }
        for precision in 0..=64 {
            want(format!("precision {precision} of ten bytes"), u64::from(self.precisions >> precision & 1 == 1));
        }
        for bit in [0, 2, 3, 4, 5, 6, 7] {
            want(format!("flag {} of ten bytes", 1 << bit), self.flags[bit]);
        }
        for side in 0..4 {
            want(format!("side {side} of ten bytes"), self.sides[side]);
        }
        for (counts, name) in self.passes.iter().zip(["sum", "square sum or dot"]) {
            for (passes, &count) in counts.iter().enumerate() {
                want(format!("a {name} of ten bytes in {passes} passes"), count);
            }
        }
        want("an unsupported encoding".to_string(), self.unsupported);
        for (daz, &count) in self.pseudo_denormals.iter().enumerate() {
            want(format!("a pseudo-denormal with denormals-are-zero {daz}"), count);
        }
    }

    fn report(&self) {
        println!("of ten bytes: refusals 1 to 5 {:?}, {} of 3 for a bias alone", &self.refusals[1..], self.biases);
        println!(
            "  {} lists with an unsupported encoding, {:?} with a pseudo-denormal, taken as it is and as a zero",
            self.unsupported, self.pseudo_denormals
        );
        println!("  flags 1, 4, 8, 16, 32, 64, 128: {:?}; sides {:?}", [0, 2, 3, 4, 5, 6, 7].map(|bit| self.flags[bit]), self.sides);
        println!("  sums in 0 to 7 and in more passes {:?}, square sums and dots {:?}", self.passes[0], self.passes[1]);
    }
}

/// How many values each setting has, without the precision.
const SETTINGS: [usize; 7] = [8, 2, 4, 2, 2, 2, 2];

/// The refusals that are drawn, and those of tables, in their order. No list is drawn so long that it is refused with 6.
const REFUSALS: [usize; 6] = [1, 2, 3, 4, 5, 7];
const TABLE_REFUSALS: [usize; 6] = [2, 3, 4, 9, 10, 7];

const SHAPES: [&str; 6] = ["no rows and no columns", "no rows", "no columns", "one row", "one column", "more of both"];

const HABITS: [&str; 3] = ["mirror of a sum", "mirror of a dot", "square beside a dot"];

fn shape(table: &Table) -> usize {
    match table.shape {
        [0, 0] => 0,
        [0, _] => 1,
        [_, 0] => 2,
        [1, _] => 3,
        [_, 1] => 4,
        _ => 5,
    }
}

fn add(to: &mut [u64], from: &[u64]) {
    to.iter_mut().zip(from).for_each(|(a, b)| *a += b);
}

impl Tally {
    pub fn add(&mut self, case: &Case, seen: &Seen) {
        self.cases += 1;
        match *seen {
            Seen::Refused(number) => {
                self.refusals[number as usize] += 1;
                self.biases += u64::from(number == 3 && !no_format(Format::plain(case.format.numbers)));
            }
            Seen::Accepted { flags, passes, side, rearranged, .. } => {
                self.sides[usize::from(side)] += 1;
                self.refusals[0] += 1;
                self.rearranged += u64::from(rearranged);
                self.add_given(case);
                self.add_answer(case, flags, passes);
            }
        }
    }

    /// A table counts as one case, whatever the number of its totals.
    pub fn add_table(&mut self, table: &Table, seen: &Seen) {
        self.cases += 1;
        match *seen {
            Seen::Refused(number) => self.tables[number as usize] += 1,
            Seen::Accepted { passes, rearranged, .. } => {
                self.refusals[0] += 1;
                self.tables[0] += 1;
                self.shapes[shape(table)] += 1;
                self.rearranged += u64::from(rearranged);
                self.most_passes = self.most_passes.max(passes);
            }
        }
    }

    /// Values of ten bytes have their own counts.
    pub fn add_tens(&mut self, case: &Case<u128>, seen: &Seen) {
        self.cases += 1;
        if let Seen::Accepted { passes, rearranged, .. } = *seen {
            self.refusals[0] += 1;
            self.rearranged += u64::from(rearranged);
            self.most_passes = self.most_passes.max(passes);
        }
        self.tens.add(case, seen);
    }

    /// A case and its other count as one.
    pub fn add_habit(&mut self, habit: &Habit, seen: &Seen) {
        self.add(&habit.0, seen);
        if let Seen::Accepted { result, .. } = *seen {
            self.habits[habit.number()][habit.0.format.numbers[0] as usize] += u64::from(habit.tells(result as u64));
        }
    }

    fn add_given(&mut self, case: &Case) {
        *self.formats.entry(case.format).or_default() += 1;
        for (counts, &value) in self.settings.iter_mut().zip(&case.settings) {
            counts[value as usize] += 1;
        }
        if case.format == BINARY64 {
            self.precisions |= 1 << case.settings[7];
        }
    }

    fn add_answer(&mut self, case: &Case, flags: u8, passes: u64) {
        for (bit, count) in self.flags.iter_mut().enumerate() {
            *count += u64::from(flags >> bit & 1);
        }
        let product = usize::from(case.is_product());
        self.most_passes = self.most_passes.max(passes);
        let passes = (passes as usize).min(LONGEST);
        self.passes[product][passes] += 1;
        self.binary64[product][passes] += u64::from(case.format == BINARY64);
    }

    pub fn merge(&mut self, other: &Tally) {
        self.cases += other.cases;
        self.rearranged += other.rearranged;
        self.differences += other.differences;
        self.most_passes = self.most_passes.max(other.most_passes);
        self.biases += other.biases;
        add(&mut self.refusals, &other.refusals);
        add(&mut self.tables, &other.tables);
        add(&mut self.shapes, &other.shapes);
        self.tens.merge(&other.tens);
        self.habits.iter_mut().zip(&other.habits).for_each(|(to, from)| add(to, from));
        add(&mut self.flags, &other.flags);
        add(&mut self.sides, &other.sides);
        self.precisions |= other.precisions;
        for (format, count) in &other.formats {
            *self.formats.entry(*format).or_default() += count;
        }
        for setting in 0..7 {
            add(&mut self.settings[setting], &other.settings[setting]);
        }
        for product in 0..2 {
            add(&mut self.passes[product], &other.passes[product]);
            add(&mut self.binary64[product], &other.binary64[product]);
        }
    }

    /// What a run is to reach and this one did not.
    pub fn missed(&self, formats: &[Format]) -> Vec<String> {
        let mut missed = vec![];
        let mut want = |what: String, count: u64| {
            if count == 0 {
                missed.push(what);
            }
        };
        for number in REFUSALS {
            want(format!("refusal {number}"), self.refusals[number]);
        }
        want("refusal 3 of a bias".to_string(), self.biases);
        for number in TABLE_REFUSALS {
            want(format!("refusal {number} of a table"), self.tables[number]);
        }
        for (name, count) in SHAPES.iter().zip(self.shapes) {
            want(format!("a table of {name}"), count);
        }
        for (name, counts) in HABITS.iter().zip(self.habits) {
            for (kind, count) in counts.into_iter().enumerate() {
                want(format!("a {name} of kind {kind}"), count);
            }
        }
        for bit in [0, 2, 3, 4, 5, 6, 7] {
            want(format!("flag {}", 1 << bit), self.flags[bit]);
        }
        for side in 0..4 {
            want(format!("side {side}"), self.sides[side]);
        }
        for format in formats {
            want(format!("format {format:?}"), self.formats.get(format).copied().unwrap_or(0));
        }
        for (setting, values) in SETTINGS.into_iter().enumerate() {
            for value in 0..values {
                want(format!("setting {setting} of {value}"), self.settings[setting][value]);
            }
        }
        for precision in 0..=53 {
            want(format!("precision {precision} of binary64"), self.precisions >> precision & 1);
        }
        for (product, longest, name) in [(0, 4, "sum"), (1, 7, "square sum or dot")] {
            for passes in 0..=longest {
                want(format!("a {name} of binary64 in {passes} passes"), self.binary64[product][passes]);
            }
        }
        self.tens.want(&mut want);
        missed
    }
}

/// One line for a group.
pub fn report_group(name: &str, tally: &Tally, seconds: f64) {
    let Tally { cases, rearranged, refusals, most_passes, differences, .. } = tally;
    let refused = cases - refusals[0] - differences;
    println!(
        "{name:<42} {cases:>10} cases {refused:>8} refused {rearranged:>10} rearranged {most_passes:>7} passes at most {seconds:>7.1} s {differences} differences"
    );
}

/// The formats that name a bias, or those that name none.
fn report_formats(tally: &Tally, biased: bool) {
    let counts: Vec<u64> = tally.formats.iter().filter(|(format, _)| format.bias.is_some() == biased).map(|(_, count)| *count).collect();
    let (least, most) = (counts.iter().min().unwrap_or(&0), counts.iter().max().unwrap_or(&0));
    println!("{} formats that name {} bias, with {least} to {most} accepted cases each", counts.len(), if biased { "a" } else { "no" });
}

/// The counts of the whole run.
pub fn report(tally: &Tally, seed: u64, seconds: f64) {
    println!();
    println!("refusals {REFUSALS:?}: {:?}, {} of 3 for a bias alone", REFUSALS.map(|number| tally.refusals[number]), tally.biases);
    println!("flags 1, 4, 8, 16, 32, 64, 128: {:?}", [0, 2, 3, 4, 5, 6, 7].map(|bit| tally.flags[bit]));
    println!("sides 0 to 3: {:?}", tally.sides);
    println!("sums in 0 to 7 and in more passes: {:?}", tally.passes[0]);
    println!("square sums and dots in 0 to 7 and in more passes: {:?}", tally.passes[1]);
    println!("of binary64: sums {:?}, square sums and dots {:?}", tally.binary64[0], tally.binary64[1]);
    println!("{} tables, refusals {TABLE_REFUSALS:?} of them: {:?}", tally.tables[0], TABLE_REFUSALS.map(|number| tally.tables[number]));
    println!("tables of {}: {:?}", SHAPES.join(", "), tally.shapes);
    tally.tens.report();
    for (name, counts) in HABITS.iter().zip(tally.habits) {
        println!("{name}, by kind: {counts:?}");
    }
    report_formats(tally, false);
    report_formats(tally, true);
    println!("{} cases, {} rearranged lists, seed {}, {seconds:.0} s, {} differences", tally.cases, tally.rearranged, seed, tally.differences);
}
