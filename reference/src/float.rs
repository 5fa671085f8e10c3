//! The float unit (document 02, T-08): IEEE 754 binary32, worked out on whole numbers. No float of the processor is used.

/// "any NaN result is 0x7FC00000"
const NAN: u32 = 0x7FC0_0000;
const INFINITY: u32 = 0x7F80_0000;
const SIGN: u32 = 0x8000_0000;
/// "NaN and what does not fit give 0x80000000."
const NO_NUMBER: u32 = 0x8000_0000;
/// The smallest positive value is 2^-149, and every finite one is a whole number of these.
const LEAST: i32 = -149;
/// A normal value has 24 digits.
const DIGITS: i32 = 24;

/// What a pattern stands for; a finite one for m * 2^e.
enum Value {
    Nan,
    Infinite(bool),
    Finite { negative: bool, m: u128, e: i32 },
}

fn value(pattern: u32) -> Value {
    let negative = pattern & SIGN != 0;
    let fraction = (pattern & 0x7F_FFFF) as u128;
    match pattern >> 23 & 0xFF {
        255 if fraction != 0 => Value::Nan,
        255 => Value::Infinite(negative),
        0 => Value::Finite { negative, m: fraction, e: LEAST },
        field => Value::Finite { negative, m: fraction + (1 << 23), e: field as i32 - 150 },
    }
}

fn with_sign(negative: bool, magnitude: u32) -> u32 {
    if negative {
        magnitude | SIGN
    } else {
        magnitude
    }
}

/// The float nearest to m * 2^e, of two equally near ones the one with the even pattern. With `more` the number is a little above that,
/// by less than one in the last place of m.
fn nearest(negative: bool, m: u128, e: i32, more: bool) -> u32 {
    if m == 0 {
        return with_sign(negative, 0);
    }
    let length = 128 - m.leading_zeros() as i32;
    let unit = (e + length - DIGITS).max(LEAST);
    let digits = if unit <= e {
        m << (e - unit)
    } else if unit - e > 120 {
        0
    } else {
        let (whole, rest, half) = (m >> (unit - e), m & ((1 << (unit - e)) - 1), 1u128 << (unit - e - 1));
        let up = rest > half || rest == half && (more || whole % 2 == 1);
        whole + up as u128
    };
    let pattern = ((unit - LEAST) as u128) * (1 << 23) + digits;
    with_sign(negative, pattern.min(INFINITY as u128) as u32)
}

/// The exact sum of two finite values, rounded. Where one is more than 2^64 times a last place of the other, the smaller only tells on
/// which side of the larger the sum is: any small number with its sign does.
fn sum(x: (bool, u128, i32), y: (bool, u128, i32)) -> u32 {
    let (high, low) = if x.2 >= y.2 { (x, y) } else { (y, x) };
    let apart = (high.2 - low.2).min(64);
    let small = if high.2 - low.2 > 64 { low.1.min(1) } else { low.1 };
    let signed = |negative: bool, m: u128| if negative { -(m as i128) } else { m as i128 };
    let total = signed(high.0, high.1 << apart) + signed(low.0, small);
    if total == 0 {
        return with_sign(x.0 && y.0, 0);
    }
    nearest(total < 0, total.unsigned_abs(), high.2 - apart, false)
}

fn add(x: u32, y: u32) -> u32 {
    match (value(x), value(y)) {
        (Value::Nan, _) | (_, Value::Nan) => NAN,
        (Value::Infinite(s), Value::Infinite(t)) if s != t => NAN,
        (Value::Infinite(s), _) | (_, Value::Infinite(s)) => with_sign(s, INFINITY),
        (Value::Finite { negative: s, m, e }, Value::Finite { negative: t, m: n, e: f }) => sum((s, m, e), (t, n, f)),
    }
}

fn multiply(x: u32, y: u32) -> u32 {
    let negative = (x ^ y) & SIGN != 0;
    match (value(x), value(y)) {
        (Value::Nan, _) | (_, Value::Nan) => NAN,
        (Value::Infinite(_), Value::Finite { m: 0, .. }) | (Value::Finite { m: 0, .. }, Value::Infinite(_)) => NAN,
        (Value::Infinite(_), _) | (_, Value::Infinite(_)) => with_sign(negative, INFINITY),
        (Value::Finite { m, e, .. }, Value::Finite { m: n, e: f, .. }) => nearest(negative, m * n, e + f, false),
    }
}

fn divide(x: u32, y: u32) -> u32 {
    let negative = (x ^ y) & SIGN != 0;
    match (value(x), value(y)) {
        (Value::Nan, _) | (_, Value::Nan) => NAN,
        (Value::Infinite(_), Value::Infinite(_)) => NAN,
        (Value::Finite { m: 0, .. }, Value::Finite { m: 0, .. }) => NAN,
        (Value::Infinite(_), _) | (_, Value::Finite { m: 0, .. }) => with_sign(negative, INFINITY),
        (_, Value::Infinite(_)) => with_sign(negative, 0),
        (Value::Finite { m, e, .. }, Value::Finite { m: n, e: f, .. }) => nearest(negative, (m << 64) / n, e - f - 64, (m << 64) % n != 0),
    }
}

/// "33 to 36 (fadd, fsub, fmul, fdiv)"
pub fn binary(opcode: u8, x: u32, y: u32) -> u32 {
    match opcode {
        33 => add(x, y),
        34 => add(x, y ^ SIGN),
        35 => multiply(x, y),
        36 => divide(x, y),
        _ => unreachable!("no such line"),
    }
}

/// "compares 37 to 42 (cmpfeq, cmpfne, cmpfgt, cmpfge, cmpflt, cmpfle)". Patterns that are no NaN's have the order of their values, without
/// their sign; +0 and -0 are equal.
pub fn compare(opcode: u8, x: u32, y: u32) -> bool {
    if matches!(value(x), Value::Nan) || matches!(value(y), Value::Nan) {
        return opcode == 38;
    }
    let place = |b: u32| if b & SIGN != 0 { -((b ^ SIGN) as i64) } else { b as i64 };
    let (x, y) = (place(x), place(y));
    match opcode {
        37 => x == y,
        38 => x != y,
        39 => x > y,
        40 => x >= y,
        41 => x < y,
        42 => x <= y,
        _ => unreachable!("no such line"),
    }
}

/// "49 cuts toward zero; NaN and what does not fit give 0x80000000."
fn cut(x: u32) -> u32 {
    let Value::Finite { negative, m, e } = value(x) else { return NO_NUMBER };
    let whole = if e < 0 { m >> (-e).min(127) } else { m << e.min(40) } as i128;
    i32::try_from(if negative { -whole } else { whole }).map_or(NO_NUMBER, |n| n as u32)
}

/// "48 i32tof32 and 49 f32toi32"
pub fn convert(opcode: u8, x: u32) -> u32 {
    match opcode {
        48 => nearest((x as i32) < 0, (x as i32).unsigned_abs() as u128, 0, false),
        49 => cut(x),
        _ => unreachable!("no such line"),
    }
}

#[cfg(test)]
mod tests {
    use super::*;

    /// "any NaN result is 0x7FC00000"; what IEEE 754 says of infinities and zeros
    #[test]
    fn special_values() {
        assert_eq!(binary(34, INFINITY, INFINITY), NAN);
        assert_eq!(binary(33, 0xFF80_0001, 0x3F80_0000), NAN);
        assert_eq!(binary(36, 0, SIGN), NAN);
        assert_eq!(binary(35, INFINITY, SIGN), NAN);
        assert_eq!(binary(36, 0x3F80_0000, SIGN), INFINITY | SIGN);
        assert_eq!(binary(36, 0x3F80_0000, INFINITY | SIGN), SIGN);
        assert_eq!(binary(33, SIGN, SIGN), SIGN);
        assert_eq!(binary(34, 0x3F80_0000, 0x3F80_0000), 0);
    }

    /// 1 + 2 = 3, 1 - 3 = -2, 3 * -2 = -6, 1 / 3; subnormals; the largest value twice; 1 + 2^-24 is a tie
    #[test]
    fn rounds_once() {
        assert_eq!(binary(33, 0x3F80_0000, 0x4000_0000), 0x4040_0000);
        assert_eq!(binary(34, 0x3F80_0000, 0x4040_0000), 0xC000_0000);
        assert_eq!(binary(35, 0x4040_0000, 0xC000_0000), 0xC0C0_0000);
        assert_eq!(binary(36, 0x3F80_0000, 0x4040_0000), 0x3EAA_AAAB);
        assert_eq!(binary(35, 0x0080_0000, 0x3F00_0000), 0x0040_0000);
        assert_eq!(binary(36, 0x0000_0001, 0x4000_0000), 0);
        assert_eq!(binary(36, 0x0000_0003, 0x4000_0000), 0x0000_0002);
        assert_eq!(binary(33, 0x7F7F_FFFF, 0x7F7F_FFFF), INFINITY);
        assert_eq!(binary(33, 0x3F80_0000, 0x3380_0000), 0x3F80_0000);
        assert_eq!(binary(33, 0x3F80_0000, 0x3380_0001), 0x3F80_0001);
        assert_eq!(binary(34, 0x3F80_0000, 0x0000_0001), 0x3F80_0000);
        assert_eq!(binary(33, 0x7F00_0000, 0x8000_0001), 0x7F00_0000);
    }

    /// "With a NaN, ne is true and the others false."
    #[test]
    fn compares() {
        for opcode in 37..=42 {
            assert_eq!(compare(opcode, NAN, 0), opcode == 38);
            assert_eq!(compare(opcode, 0, 0x7F80_0001), opcode == 38);
            assert_eq!(compare(opcode, 0, SIGN), matches!(opcode, 37 | 40 | 42));
            assert_eq!(compare(opcode, 0xC000_0000, 0xBF80_0000), matches!(opcode, 38 | 41 | 42));
            assert_eq!(compare(opcode, INFINITY, 0x7F7F_FFFF), matches!(opcode, 38 | 39 | 40));
        }
    }

    /// "48 rounds to nearest even": 2^24 + 1 and 2^24 + 3 are ties
    #[test]
    fn whole_numbers() {
        assert_eq!(convert(48, 0), 0);
        assert_eq!(convert(48, 0x0100_0001), 0x4B80_0000);
        assert_eq!(convert(48, 0x0100_0003), 0x4B80_0002);
        assert_eq!(convert(48, 0x7FFF_FFFF), 0x4F00_0000);
        assert_eq!(convert(48, 0x8000_0000), 0xCF00_0000);
        assert_eq!(convert(48, 0xFFFF_FFFF), 0xBF80_0000);
    }

    /// "49 cuts toward zero; NaN and what does not fit give 0x80000000.": -0.9, -1.5, the largest below 2^31, 2^31, -2^31
    #[test]
    fn cuts() {
        assert_eq!(convert(49, 0xBF66_6666), 0);
        assert_eq!(convert(49, 0xBFC0_0000), 0xFFFF_FFFF);
        assert_eq!(convert(49, 0x4EFF_FFFF), 0x7FFF_FF80);
        assert_eq!(convert(49, 0x4F00_0000), NO_NUMBER);
        assert_eq!(convert(49, 0xCF00_0000), 0x8000_0000);
        assert_eq!(convert(49, 0xCF00_0001), NO_NUMBER);
        assert_eq!(convert(49, 0x7F7F_FFFF), NO_NUMBER);
        assert_eq!(convert(49, NAN), NO_NUMBER);
        assert_eq!(convert(49, INFINITY), NO_NUMBER);
    }

    /// Cases of Berkeley TestFloat 3 (tests/testfloat says how they were made): operands, result and flags, any NaN as 0x7FC00000, an
    /// invalid conversion's result as 0x80000000. gt and ge are lt and le with operands exchanged.
    #[test]
    fn testfloat() {
        let is_nan = |b: u32| b & 0x7FFF_FFFF > INFINITY;
        let names = ["f32_add", "f32_sub", "f32_mul", "f32_div", "f32_eq", "f32_lt", "f32_le", "i32_to_f32", "f32_to_i32"];
        for (opcode, name) in [33, 34, 35, 36, 37, 41, 42, 48, 49].into_iter().zip(names) {
            let file = format!("{}/../tests/testfloat-cases/{name}", env!("CARGO_MANIFEST_DIR"));
            let text = std::fs::read_to_string(&file).expect("stored cases");
            assert!(text.lines().count() > 300, "{name} has few cases");
            for line in text.lines() {
                let numbers: Vec<u32> = line.split(' ').map(|x| u32::from_str_radix(x, 16).expect("hex")).collect();
                match (opcode, &numbers[..]) {
                    (33..=36, &[x, y, r, _]) => assert_eq!(binary(opcode, x, y), if is_nan(r) { NAN } else { r }, "{name} {line}"),
                    (37, &[x, y, r, _]) => assert_eq!((compare(37, x, y), compare(38, x, y)), (r == 1, r == 0), "{name} {line}"),
                    (41 | 42, &[x, y, r, _]) => {
                        assert_eq!((compare(opcode, x, y), compare(opcode - 2, y, x)), (r == 1, r == 1), "{name} {line}")
                    }
                    (48, &[x, r, _]) => assert_eq!(convert(48, x), r, "{name} {line}"),
                    (49, &[x, r, flags]) => assert_eq!(convert(49, x), if flags & 0x10 != 0 { NO_NUMBER } else { r }, "{name} {line}"),
                    _ => panic!("{name} {line}"),
                }
            }
        }
    }
}
