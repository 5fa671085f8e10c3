//! Programs as text (document 02, T-01): a source's words, or the number and the line that it is refused with.

use crate::word::{self, Instruction};

/// "source to 65,536", "lines to 120 bytes", "up to 256 labels of 1 to 16 letters", "nested at most 8 deep", "within plus or minus 2^31"
const SOURCE: usize = 65_536;
const LINE: usize = 120;
const LABELS: usize = 256;
const LETTERS: usize = 16;
const DEPTH: u32 = 8;
const LIMIT: i64 = 1 << 31;

/// What a source is refused for, in the order of the paper's sentence.
#[derive(Clone, Copy, PartialEq, Eq, Debug)]
pub enum Why {
    SourceTooLong,
    LineTooLong,
    Malformed,
    UnknownLabel,
    RepeatedLabel,
    TooManyLabels,
    TooDeep,
    TooLarge,
    NoWord,
    NoProgram,
    ShortBuffer,
}

impl Why {
    pub const ALL: [Why; 11] = [
        Why::SourceTooLong,
        Why::LineTooLong,
        Why::Malformed,
        Why::UnknownLabel,
        Why::RepeatedLabel,
        Why::TooManyLabels,
        Why::TooDeep,
        Why::TooLarge,
        Why::NoWord,
        Why::NoProgram,
        Why::ShortBuffer,
    ];

    /// The table's number.
    pub fn number(self) -> u32 {
        match self {
            Why::SourceTooLong | Why::LineTooLong | Why::Malformed | Why::NoWord => 12,
            Why::UnknownLabel | Why::RepeatedLabel | Why::TooManyLabels => 13,
            Why::TooDeep | Why::TooLarge => 14,
            Why::NoProgram => 1,
            Why::ShortBuffer => 18,
        }
    }
}

/// A refusal, and its line counted from 1, or 0.
pub type Refusal = (Why, u32);

#[derive(Clone, Copy, PartialEq, Eq, Debug)]
struct Register {
    is_vector: bool,
    number: u8,
}

/// "a sum or difference, perhaps led by a minus": the terms, and whether a minus stands before each.
struct Sum(Vec<(bool, Term)>);

enum Term {
    Number(i64),
    Label(Vec<u8>),
    Parentheses(Sum),
}

enum Line {
    Blank,
    Label(Vec<u8>),
    Code { name: Instruction, registers: Vec<Register>, number: Option<Sum> },
}

/// What an instruction's operands are, in field order.
#[derive(Clone, Copy)]
enum Operand {
    Register,
    Number,
    /// "an offset before its bracket"
    Address,
}

/// Every instruction that document 01 names, its fields still 0.
fn instructions() -> Vec<Instruction> {
    let r = (1..=25).chain(32..=44).chain(48..=49).map(|opcode| Instruction::R { opcode, flags: 0, d: 0, a: 0, b: 0 });
    let i = (1..=11).chain(14..=23).chain(25..=25).map(|opcode| Instruction::I { opcode, flags: 0, d: 0, a: 0, immediate: 0 });
    let movei = (0..=2).map(|opcode| Instruction::Movei { opcode, flag: 0, d: 0, immediate: 0 });
    let j = [0, 1, 2, 5, 6].map(|opcode| Instruction::J { opcode, register: 0, offset: 0 });
    let c = (0..=2).map(|opcode| Instruction::C { opcode, first: 0, second: 0 });
    let m = [0, 1, 2, 4, 5, 8, 32, 33, 34, 40].map(|opcode| Instruction::M { opcode, register: 0, base: 0, offset: 0 });
    r.chain(i).chain(movei).chain(j).chain(c).chain(m).collect()
}

/// The names, each with its instruction.
pub struct Names(Vec<(Vec<u8>, Instruction)>);

impl Names {
    #[allow(clippy::new_without_default)]
    pub fn new() -> Names {
        Names(instructions().into_iter().map(|i| (word::name(i).into_bytes(), i)).collect())
    }

    fn find(&self, name: &[u8]) -> Option<Instruction> {
        self.0.iter().find(|(n, _)| n == name).map(|(_, i)| *i)
    }

    pub fn all(&self) -> impl Iterator<Item = &[u8]> {
        self.0.iter().map(|(n, _)| n.as_slice())
    }
}

/// "operands follow document 01's figures and field order .. fields fixed at 0 left out"
fn operands(name: Instruction) -> &'static [Operand] {
    use Operand::{Address, Number, Register};
    match name {
        Instruction::R { opcode, .. } if word::is_unary(opcode) => &[Register, Register],
        Instruction::R { .. } => &[Register, Register, Register],
        Instruction::I { .. } => &[Register, Register, Number],
        Instruction::Movei { .. } => &[Register, Number],
        Instruction::J { opcode: 0 | 1, .. } => &[Number],
        Instruction::J { opcode: 2, .. } => &[],
        Instruction::J { .. } => &[Register, Number],
        Instruction::C { opcode: 2, .. } => &[],
        Instruction::C { .. } => &[Register, Register],
        Instruction::M { .. } => &[Register, Address],
    }
}

#[derive(Clone, Copy, PartialEq, Eq)]
enum Token<'a> {
    /// Letters and digits in a row, and the place behind them.
    Word(&'a [u8], usize),
    Mark(u8),
}

fn is_blank(byte: u8) -> bool {
    byte == b' ' || byte == b'\t'
}

fn tokens(text: &[u8]) -> Vec<Token<'_>> {
    let mut found = Vec::new();
    let mut at = 0;
    while at < text.len() {
        let length = text[at..].iter().take_while(|c| c.is_ascii_alphanumeric()).count();
        if length > 0 {
            found.push(Token::Word(&text[at..at + length], at + length));
        } else if !is_blank(text[at]) {
            found.push(Token::Mark(text[at]));
        }
        at += length.max(1);
    }
    found
}

fn is_label(word: &[u8]) -> bool {
    (1..=LETTERS).contains(&word.len()) && word.iter().all(u8::is_ascii_alphabetic)
}

/// "decimal or 0x numbers", of any length: what is far past the limit stays there.
fn number(word: &[u8]) -> Option<i64> {
    let (digits, base) = match word.strip_prefix(b"0x") {
        Some(digits) => (digits, 16),
        None => (word, 10),
    };
    if digits.is_empty() {
        return None;
    }
    digits.iter().try_fold(0i64, |n, c| Some((n * base + (*c as char).to_digit(base as u32)? as i64).min(4 * LIMIT)))
}

/// "a register is s0 to s63 or v0 to v63"
fn register(word: &[u8]) -> Option<Register> {
    let (letter, digits) = word.split_first()?;
    let number = (0..64u8).find(|n| n.to_string().as_bytes() == digits)?;
    match letter {
        b's' => Some(Register { is_vector: false, number }),
        b'v' => Some(Register { is_vector: true, number }),
        _ => None,
    }
}

/// The tokens of a line that are still to be read.
struct Reader<'a>(std::iter::Peekable<std::vec::IntoIter<Token<'a>>>);

impl<'a> Reader<'a> {
    fn mark(&mut self, mark: u8) -> Option<()> {
        self.0.next_if(|t| *t == Token::Mark(mark)).map(|_| ())
    }

    fn word(&mut self) -> Option<&'a [u8]> {
        match self.0.next()? {
            Token::Word(word, _) => Some(word),
            Token::Mark(_) => None,
        }
    }

    fn sum(&mut self) -> Option<Sum> {
        let mut minus = self.mark(b'-').is_some();
        let mut terms = Vec::new();
        loop {
            terms.push((minus, self.term()?));
            minus = if self.mark(b'+').is_some() {
                false
            } else if self.mark(b'-').is_some() {
                true
            } else {
                return Some(Sum(terms));
            }
        }
    }

    fn term(&mut self) -> Option<Term> {
        if self.mark(b'(').is_some() {
            let sum = self.sum()?;
            self.mark(b')')?;
            return Some(Term::Parentheses(sum));
        }
        let word = self.word()?;
        match number(word) {
            Some(n) => Some(Term::Number(n)),
            None => is_label(word).then(|| Term::Label(word.to_vec())),
        }
    }

    fn bracket(&mut self) -> Option<Register> {
        self.mark(b'(')?;
        let base = register(self.word()?)?;
        self.mark(b')')?;
        Some(base)
    }

    /// Whether a bracket with a register comes next, and so no offset.
    fn at_bracket(&self) -> bool {
        let mut ahead = self.0.clone();
        ahead.next() == Some(Token::Mark(b'(')) && matches!(ahead.next(), Some(Token::Word(word, _)) if register(word).is_some())
    }
}

/// The operands of an instruction, and nothing behind them.
fn code(name: Instruction, mut rest: Reader) -> Option<Line> {
    let (mut registers, mut number) = (Vec::new(), None);
    for (k, operand) in operands(name).iter().enumerate() {
        if k > 0 {
            rest.mark(b',')?;
        }
        match operand {
            Operand::Register => registers.push(register(rest.word()?)?),
            Operand::Number => number = Some(rest.sum()?),
            Operand::Address => {
                if !rest.at_bracket() {
                    number = Some(rest.sum()?);
                }
                registers.push(rest.bracket()?);
            }
        }
    }
    rest.0.next().is_none().then_some(Line::Code { name, registers, number })
}

/// What a line says; nothing where it is malformed.
fn line(names: &Names, line: &[u8]) -> Option<Line> {
    let text = line.split(|c| *c == b';').next().unwrap_or(&[]);
    let tokens = tokens(text);
    let (word, end) = match tokens.first() {
        None => return Some(Line::Blank),
        Some(Token::Mark(_)) => return None,
        Some(Token::Word(word, end)) => (*word, *end),
    };
    if tokens.get(1) == Some(&Token::Mark(b':')) {
        return (tokens.len() == 2 && is_label(word)).then(|| Line::Label(word.to_vec()));
    }
    let name = names.find(word)?;
    // "must follow a name that has operands"
    if !operands(name).is_empty() && !text.get(end).is_some_and(|c| is_blank(*c)) {
        return None;
    }
    let mut rest = tokens.into_iter().peekable();
    rest.next();
    code(name, Reader(rest))
}

/// The labels of a source with their addresses, the first of a name first.
type Labels = std::collections::HashMap<Vec<u8>, i64>;

fn knows_all(sum: &Sum, labels: &Labels) -> bool {
    sum.0.iter().all(|(_, term)| match term {
        Term::Number(_) => true,
        Term::Label(label) => labels.contains_key(label),
        Term::Parentheses(inside) => knows_all(inside, labels),
    })
}

/// The value of a sum in which so many more parentheses may open.
fn value(sum: &Sum, labels: &Labels, depth: u32) -> Result<i64, Why> {
    let mut running = 0;
    for (minus, term) in &sum.0 {
        let n = match term {
            Term::Number(n) => *n,
            Term::Label(label) => labels[label],
            Term::Parentheses(inside) => value(inside, labels, depth.checked_sub(1).ok_or(Why::TooDeep)?)?,
        };
        running += if *minus { -n } else { n };
        if n.abs() > LIMIT || running.abs() > LIMIT {
            return Err(Why::TooLarge);
        }
    }
    Ok(running)
}

/// The word of an instruction at an address, with its operands, if it has one.
fn word_of(name: Instruction, registers: &[Register], number: i64, at: i64) -> Option<u32> {
    let nothing = Register { is_vector: false, number: 0 };
    let get = |k: usize| registers.get(k).copied().unwrap_or(nothing);
    let [x, y, z] = [get(0), get(1), get(2)];
    let small = |n: i64| i32::try_from(n).ok();
    let [fx, fy, fz] = [x, y, z].map(|r| r.is_vector as u8);
    word::write(match name {
        Instruction::R { opcode, .. } => Instruction::R { opcode, flags: 4 * fx + 2 * fy + fz, d: x.number, a: y.number, b: z.number },
        Instruction::I { opcode, .. } => Instruction::I { opcode, flags: 2 * fx + fy, d: x.number, a: y.number, immediate: small(number)? },
        Instruction::Movei { opcode, .. } => Instruction::Movei { opcode, flag: fx, d: x.number, immediate: small(number)? },
        // "In jumps and branches it is the target address."
        Instruction::J { opcode, .. } => {
            let offset = if opcode == 2 { 0 } else { small(number - at)? };
            (!x.is_vector).then_some(Instruction::J { opcode, register: x.number, offset })?
        }
        Instruction::C { opcode, .. } => {
            (!x.is_vector && !y.is_vector).then_some(Instruction::C { opcode, first: x.number, second: y.number })?
        }
        Instruction::M { opcode, .. } => {
            let right = x.is_vector == matches!(opcode, 8 | 40) && !y.is_vector;
            right.then_some(Instruction::M { opcode, register: x.number, base: y.number, offset: small(number)? })?
        }
    })
}

/// The first line that a rule refuses, counted from 1.
fn first<T>(lines: &[T], mut refuse: impl FnMut(&T) -> Option<Why>) -> Result<(), Refusal> {
    match lines.iter().enumerate().find_map(|(k, l)| refuse(l).map(|why| (why, k as u32 + 1))) {
        Some(refusal) => Err(refusal),
        None => Ok(()),
    }
}

/// "label unknown, repeated or the 257th"
fn labels_of(lines: &[Line]) -> Result<Labels, Refusal> {
    let (mut labels, mut at) = (Labels::new(), 0);
    for l in lines {
        match l {
            Line::Label(label) => {
                labels.entry(label.clone()).or_insert(at);
            }
            Line::Code { .. } => at += 4,
            Line::Blank => {}
        }
    }
    let mut met = std::collections::HashSet::new();
    first(lines, |l| match l {
        Line::Blank => None,
        Line::Label(label) if met.len() == LABELS && !met.contains(label) => Some(Why::TooManyLabels),
        Line::Label(label) => (!met.insert(label.clone())).then_some(Why::RepeatedLabel),
        Line::Code { number, .. } => number.iter().any(|sum| !knows_all(sum, &labels)).then_some(Why::UnknownLabel),
    })?;
    Ok(labels)
}

/// The words of a source, for a buffer with room for so many.
pub fn assemble(names: &Names, source: &[u8], room: usize) -> Result<Vec<u32>, Refusal> {
    if source.len() > SOURCE {
        return Err((Why::SourceTooLong, 0));
    }
    let mut lines = Vec::new();
    let texts: Vec<&[u8]> = source.split(|c| *c == b'\n').collect();
    first(&texts, |text| match line(names, text) {
        _ if text.len() > LINE => Some(Why::LineTooLong),
        None => Some(Why::Malformed),
        Some(l) => {
            lines.push(l);
            None
        }
    })?;
    let labels = labels_of(&lines)?;
    let mut words = Vec::new();
    first(&lines, |l| {
        let Line::Code { name, registers, number } = l else { return None };
        let n = match number {
            None => 0,
            Some(sum) => match value(sum, &labels, DEPTH) {
                Err(why) => return Some(why),
                Ok(n) => n,
            },
        };
        match word_of(*name, registers, n, 4 * words.len() as i64) {
            None => Some(Why::NoWord),
            Some(w) => {
                words.push(w);
                None
            }
        }
    })?;
    if words.is_empty() || words.len() > 16_384 {
        return Err((Why::NoProgram, 0));
    }
    if words.len() > room {
        return Err((Why::ShortBuffer, 0));
    }
    Ok(words)
}
