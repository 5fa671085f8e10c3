//! Operands of float operations, of every kind and near each other; and which kinds of cases were met, for each operation, in scalars and
//! in lanes. A case's kind is told by the processor's double numbers: it is counted, and nothing is compared with it.

use crate::random::Random;
use reference::float::{binary, convert};

const SIGN: u32 = 0x8000_0000;
const INFINITY: u32 = 0x7F80_0000;

/// The ends of each kind: zeros, subnormals, the least and the largest normal values, infinities, quiet and signalling NaNs; and some
/// whose products and quotients are ties.
const ENDS: [u32; 14] = [
    0,
    0,
    1,
    3,
    0x007F_FFFF,
    0x0080_0000,
    0x3F80_0001,
    0x3FC0_0000,
    0x4000_0000,
    0x7F7F_FFFF,
    INFINITY,
    0x7F80_0001,
    0x7FC0_0000,
    0x7FFF_FFFF,
];

/// The ends of what 49 gives: one, 2^31, and what is next to them.
const BORDERS: [u32; 6] = [0x3F7F_FFFF, 0x3F80_0000, 0x3F80_0001, 0x4EFF_FFFF, 0x4F00_0000, 0x4F00_0001];

/// A float operation: its opcode, its name, the flags of its four forms, and the kinds of its cases.
pub struct Operation {
    pub opcode: u8,
    name: &'static str,
    pub forms: [u8; 4],
    kinds: &'static [&'static str],
}

const ARITHMETIC: [u8; 4] = [0b000, 0b111, 0b110, 0b101];
const COMPARE: [u8; 4] = [0b000, 0b011, 0b010, 0b001];
const CONVERSION: [u8; 4] = [0b000, 0b110, 0b000, 0b110];

/// How a result comes from the exact number, by magnitude; what it is comes first.
const RESULTS: [&str; 7] = ["exact", "rounded up", "rounded down", "a tie", "subnormal", "infinite", "a NaN"];
const OUTCOMES: [&str; 5] = ["below", "equal", "above", "unordered", "zeros of two signs"];
const CUTS: [&str; 4] = ["whole", "cut", "out of range", "at a border"];

const fn operation(opcode: u8, name: &'static str, forms: [u8; 4], kinds: &'static [&'static str]) -> Operation {
    Operation { opcode, name, forms, kinds }
}

pub const OPERATIONS: [Operation; 12] = [
    operation(33, "fadd", ARITHMETIC, &RESULTS),
    operation(34, "fsub", ARITHMETIC, &RESULTS),
    operation(35, "fmul", ARITHMETIC, &RESULTS),
    operation(36, "fdiv", ARITHMETIC, &RESULTS),
    operation(37, "cmpfeq", COMPARE, &OUTCOMES),
    operation(38, "cmpfne", COMPARE, &OUTCOMES),
    operation(39, "cmpfgt", COMPARE, &OUTCOMES),
    operation(40, "cmpfge", COMPARE, &OUTCOMES),
    operation(41, "cmpflt", COMPARE, &OUTCOMES),
    operation(42, "cmpfle", COMPARE, &OUTCOMES),
    operation(48, "i32tof32", CONVERSION, RESULTS.split_at(4).0),
    operation(49, "f32toi32", CONVERSION, &CUTS),
];

impl Operation {
    /// The kind of a case: its place in `kinds`.
    fn kind(&self, x: u32, y: u32) -> usize {
        match self.opcode {
            33..=36 => rounding(exact(self.opcode, x, y), binary(self.opcode, x, y)),
            48 => rounding((x as i32 as f64, 0.0), convert(48, x)),
            49 => cut(x),
            _ => outcome(x, y),
        }
    }

    /// An operand that is near none: any float, or one at an end. 48 takes whole numbers too, half of them next to a tie; 49 takes borders.
    fn base(&self, random: &mut Random) -> u32 {
        let sign = random.of(&[0, SIGN]);
        match (self.opcode, random.below(4)) {
            (48, 0) => random.word() as u32 >> random.below(32),
            (48, 1) => near_tie(random),
            (49, 0) => random.of(&BORDERS) ^ sign,
            (_, 0 | 1) => random.of(&ENDS) ^ sign,
            _ => random.float(),
        }
    }

    /// Sixteen operands, most of them near one of a few, so that sums cancel, quotients are near one, and compares are equal. Some are near
    /// the first of `others`, which are sixteen that were made before, or none.
    pub fn operands(&self, random: &mut Random, others: &[u32]) -> [u32; 16] {
        let mut bases: Vec<u32> = others.iter().copied().take(2).collect();
        std::array::from_fn(|_| {
            if bases.is_empty() || random.one_in(4) {
                bases.push(self.base(random));
                bases[bases.len() - 1]
            } else {
                let base = random.of(&bases);
                near(random, base)
            }
        })
    }
}

/// One that is equal to another or to its negative, next to it, or differs in one bit.
fn near(random: &mut Random, other: u32) -> u32 {
    match random.below(8) {
        0..=2 => other,
        3 | 4 => other ^ SIGN,
        5 => other ^ 1 << random.below(32),
        _ => (other ^ random.of(&[0, SIGN])).wrapping_add(random.below(5) as u32).wrapping_sub(2),
    }
}

/// A signed number of more than 24 digits, in the middle between two floats or next to it.
fn near_tie(random: &mut Random) -> u32 {
    let dropped = 1 + random.below(7) as u32;
    let digits = 1 << 23 | random.below(1 << 23) as u32;
    let magnitude = (digits << dropped) + (1 << (dropped - 1)) + random.below(3) as u32 - 1;
    random.of(&[magnitude, magnitude.wrapping_neg()])
}

fn number(pattern: u32) -> f64 {
    f32::from_bits(pattern) as f64
}

/// The exact sum, difference, product or quotient: a double number, and what is to be added to it (of a quotient its sign alone is right).
fn exact(opcode: u8, x: u32, y: u32) -> (f64, f64) {
    let (x, y) = (number(x), if opcode == 34 { -number(y) } else { number(y) });
    match opcode {
        35 => (x * y, 0.0),
        36 => (x / y, (-(x / y)).mul_add(y, x) / y),
        _ => {
            let sum = x + y;
            let part = sum - x;
            (sum, (x - (sum - part)) + (y - part))
        }
    }
}

/// How a result comes from the exact number.
fn rounding((double, rest): (f64, f64), result: u32) -> usize {
    let magnitude = result & !SIGN;
    if magnitude > INFINITY {
        return 6;
    }
    if magnitude == INFINITY {
        return 5;
    }
    let sign = if result & SIGN != 0 { -1.0 } else { 1.0 };
    let (more, rest) = (sign * double - number(magnitude), sign * rest);
    let next = if more < 0.0 { number(magnitude - 1) } else { number(magnitude + 1) };
    if rest == 0.0 && more != 0.0 && 2.0 * more == next - number(magnitude) {
        3
    } else if (1..0x0080_0000).contains(&magnitude) {
        4
    } else if more + rest == 0.0 {
        0
    } else if more + rest < 0.0 {
        1
    } else {
        2
    }
}

fn outcome(x: u32, y: u32) -> usize {
    match number(x).partial_cmp(&number(y)) {
        None => 3,
        Some(std::cmp::Ordering::Equal) if x != y => 4,
        Some(order) => (order as i8 + 1) as usize,
    }
}

fn cut(x: u32) -> usize {
    if BORDERS.contains(&(x & !SIGN)) {
        3
    } else if x & !SIGN > 0x4F00_0000 {
        2
    } else {
        (number(x).fract() != 0.0) as usize
    }
}

/// How many cases of each kind were met: of each operation, in scalars and in lanes.
#[derive(Default)]
pub struct Kinds([[[u64; RESULTS.len()]; 2]; OPERATIONS.len()]);

const WHERE: [&str; 2] = ["scalars", "lanes"];

impl Kinds {
    /// A case of the operation at a place of the table.
    pub fn met(&mut self, operation: usize, in_lanes: bool, x: u32, y: u32) {
        self.0[operation][in_lanes as usize][OPERATIONS[operation].kind(x, y)] += 1;
    }

    pub fn add(&mut self, other: &Kinds) {
        let (sums, counts) = (self.0.as_flattened_mut().as_flattened_mut(), other.0.as_flattened().as_flattened());
        sums.iter_mut().zip(counts).for_each(|(sum, count)| *sum += count);
    }

    /// The kinds' names, each with its count over all operations.
    pub fn sums(&self) -> Vec<(String, u64)> {
        let count = |kind: &str| {
            let of_one = |(operation, counts): (&Operation, &[[u64; RESULTS.len()]; 2])| {
                let at = operation.kinds.iter().position(|name| *name == kind);
                at.map_or(0, |at| counts[0][at] + counts[1][at])
            };
            OPERATIONS.iter().zip(&self.0).map(of_one).sum()
        };
        RESULTS.iter().chain(&OUTCOMES).chain(&CUTS).map(|kind| (kind.to_string(), count(kind))).collect()
    }

    /// A kind that an operation did not meet, in scalars or in lanes.
    pub fn missing(&self) -> Option<String> {
        for (operation, counts) in OPERATIONS.iter().zip(&self.0) {
            for (place, counts) in WHERE.iter().zip(counts) {
                if let Some(at) = (0..operation.kinds.len()).find(|at| counts[*at] == 0) {
                    return Some(format!("{} of {place}: {}", operation.name, operation.kinds[at]));
                }
            }
        }
        None
    }
}
