//! One call of an entry: every number and byte that it is given.

use std::fmt;

/// The values of a list, at most this many.
pub const LIMIT: usize = 1 << 28;

#[derive(Clone, Copy, Debug, PartialEq, Eq)]
pub enum Operation {
    /// The number of the summand: 0 value, 1 magnitude, 2 square; above that a refusal.
    Sum(u64),
    Dot,
}

/// A format, or three numbers and a bias that are none.
#[derive(Clone, Copy, Debug, PartialEq, Eq, Hash)]
pub struct Format {
    /// Kind, exponent bits, width.
    pub numbers: [u64; 3],
    /// The bias that is named, if one is.
    pub bias: Option<i64>,
}

impl Format {
    /// A format that names no bias.
    pub const fn plain(numbers: [u64; 3]) -> Self {
        Self { numbers, bias: None }
    }

    pub const fn biased(numbers: [u64; 3], bias: i64) -> Self {
        Self { numbers, bias: Some(bias) }
    }

    pub fn exponent_bits(&self) -> u64 {
        self.numbers[1]
    }

    pub fn width(&self) -> u64 {
        self.numbers[2]
    }

    /// The bias of the kind, for three numbers that are a format.
    pub fn own_bias(&self) -> i64 {
        let [kind, e, _] = self.numbers;
        let half = 1 << (e - 1);
        if kind == 2 { half } else { half - 1 }
    }

    pub fn names_its_own(&self) -> bool {
        self.bias == Some(self.own_bias())
    }

    /// The bias that the format has.
    pub fn bias_or_own(&self) -> i64 {
        self.bias.unwrap_or_else(|| self.own_bias())
    }
}

/// Values are words, or of ten bytes (kind 4).
#[derive(Clone, Debug)]
pub struct Case<V = u64> {
    pub format: Format,
    /// Rounding, tininess, NaN propagation, default NaN's sign, flush to zero, denormals are zero, saturate, precision.
    pub settings: [u64; 8],
    pub operation: Operation,
    /// The values, or the left list of a dot.
    pub left: Vec<V>,
    /// The right list of a dot.
    pub right: Vec<V>,
    /// How many bytes, fewer than a value has, stand behind the values of the left and of the right list.
    pub behind: [usize; 2],
    /// The length of the answer buffer.
    pub room: usize,
    /// What the buffer holds before the call.
    pub fill: u8,
    /// Draws the order of the rearranged list.
    pub order: u64,
}

impl<V> Case<V> {
    /// A well-formed call on a list of no values.
    pub fn new(format: Format, settings: [u64; 8], operation: Operation) -> Self {
        Self { format, settings, operation, left: vec![], right: vec![], behind: [0; 2], room: 40, fill: 0xa5, order: 0 }
    }

    pub fn is_dot(&self) -> bool {
        self.operation == Operation::Dot
    }

    /// Whether terms are products of two factors.
    pub fn is_product(&self) -> bool {
        matches!(self.operation, Operation::Dot | Operation::Sum(2))
    }
}

fn list<V: fmt::LowerHex>(values: &[V]) -> String {
    const SHOWN: usize = 64;
    let mut text: Vec<String> = values.iter().take(SHOWN).map(|v| format!("{v:x}")).collect();
    if values.len() > SHOWN {
        text.push(format!("and {} more", values.len() - SHOWN));
    }
    format!("[{}]", text.join(" "))
}

impl<V: fmt::LowerHex> fmt::Display for Case<V> {
    fn fmt(&self, out: &mut fmt::Formatter) -> fmt::Result {
        let [kind, e, w] = self.format.numbers;
        let names = ["rounding", "tininess", "nan", "default-nan", "flush", "daz", "saturate", "precision"];
        write!(out, "kind {kind} E {e} W {w}")?;
        if let Some(bias) = self.format.bias {
            write!(out, ", bias {bias}")?;
        }
        for (name, value) in names.iter().zip(self.settings).filter(|(_, value)| *value != 0) {
            write!(out, ", {name} {value}")?;
        }
        match self.operation {
            Operation::Sum(summand) => write!(out, ", sum of summand {summand} over {}", list(&self.left))?,
            Operation::Dot => write!(out, ", dot of {} and {}", list(&self.left), list(&self.right))?,
        }
        if self.behind != [0; 2] {
            write!(out, ", bytes behind the lists {:?}", self.behind)?;
        }
        write!(out, ", answer buffer of {} filled from {:02x}, order {:x}", self.room, self.fill, self.order)
    }
}
