//! Sources at the boundaries of document 02's T-01, each with what it must become: by the paper's figures, its layouts and its sentences.

/// The words, or a number and its line.
pub type Outcome = Result<Vec<u32>, (u32, u32)>;

pub struct Case {
    pub source: Vec<u8>,
    pub room: usize,
    pub becomes: Outcome,
}

/// What short sources become, in a buffer of 16 words.
type Row = (&'static str, Result<&'static [u32], (u32, u32)>);

/// Document 01's figures, T-02's and T-08's, and the refusals in their order.
const FIGURES: &[Row] = &[
    ("add s3,s1,s2", Ok(&[0x040C1080])),
    ("add v3 , v1,v2 ; lanes", Ok(&[0x040C108E])),
    ("cmplt s59,v1,v2", Ok(&[0x12EC1086])),
    ("addi s1,s1,-1", Ok(&[0x44041FF8])),
    ("load32 s2,(s1)", Ok(&[0x82081000])),
    ("a:\njmp a\nend", Ok(&[0x70000000, 0x7A000000])),
    ("movei s2,4\nbarrier s0,s1\nend", Ok(&[0x62080010, 0x78001000, 0x7A000000])),
    ("movei s1,-32768", Ok(&[0x62060000])),
    ("movei s1,-32769", Err((12, 1))),
    ("movei s1,32767", Ok(&[0x6205FFFC])),
    ("movei s1,0x8000", Err((12, 1))),
    ("movei s1,-1", Ok(&[0x6207FFFC])),
    ("moveil s1,65536", Err((12, 1))),
    ("moveih s1,-1", Err((12, 1))),
    ("fadd s0,s0,s0", Ok(&[0x21000000])),
    ("i32tof32 s1,s2", Ok(&[0x30042000])),
    ("f32toi32 v1,v2", Ok(&[0x3104200C])),
    ("cmpfle s1,v2,v3", Ok(&[0x2A0420C6])),
    ("faddi s1,s2,1", Err((12, 1))),
    ("split s1,0", Err((12, 1))),
    ("join", Err((12, 1))),
    ("jmp ((((((((0))))))))", Ok(&[0x70000000])),
    ("jmp (((((((((0)))))))))", Err((14, 1))),
    ("jmp (((((((((0))))))))", Err((12, 1))),
    ("jmp ((((((((((0))))))))", Err((12, 1))),
    ("load32 s1,((((((((4))))))))(s2)", Ok(&[0x82042020])),
    ("load32 s1,(((((((((4)))))))))(s2)", Err((14, 1))),
    ("jmp 2147483648-2147483648", Ok(&[0x70000000])),
    ("jmp 2147483648+1-1", Err((14, 1))),
    ("jmp (2147483647+1)-2147483648", Ok(&[0x70000000])),
    ("jmp (2147483647+2)-2147483649", Err((14, 1))),
    ("jmp -(2147483647+1)+2147483648", Ok(&[0x70000000])),
    ("jmp -2147483648-1+1", Err((14, 1))),
    ("jmp 0x80000000-0x80000000", Ok(&[0x70000000])),
    ("jmp 0x80000001-0x80000001", Err((14, 1))),
    ("jmp 2147483648", Err((12, 1))),
    // malformed on any line, then labels, then by line 14 and no word, then 1
    ("jmp b\nadd s1,v1,v2\nadd s1", Err((12, 3))),
    ("jmp b\nadd s1,v1,v2", Err((13, 1))),
    ("add s1,v1,v2\njmp b", Err((13, 2))),
    ("jmp 99999999999\njmp b", Err((13, 2))),
    ("end\nadd s1,v1,v2\njmp 99999999999", Err((12, 2))),
    ("end\njmp 99999999999\nadd s1,v1,v2", Err((14, 2))),
    ("load32 v1,99999999999(s1)", Err((14, 1))),
    ("jmp(0)", Err((12, 1))),
    ("jmp-4", Err((12, 1))),
    ("jmp\t-4", Ok(&[0x7003FFFC])),
    ("end;x", Ok(&[0x7A000000])),
    ("end ;\n", Ok(&[0x7A000000])),
    ("a:a:", Err((12, 1))),
    ("a: end", Err((12, 1))),
    ("end end", Err((12, 1))),
    ("a:\n a :", Err((13, 2))),
    ("a:\nA:\njmp A\n", Ok(&[0x70000000])),
    ("a:\njmp A", Err((13, 2))),
    ("", Err((1, 0))),
    (";", Err((1, 0))),
    ("\n\n \t\n", Err((1, 0))),
    ("a:", Err((1, 0))),
    ("ADD s1,s2,s3", Err((12, 1))),
    ("add S1,s2,s3", Err((12, 1))),
    ("add s63,s2,s3", Err((12, 1))),
    ("add v63,v63,s63", Ok(&[0x04FFFFCC])),
    ("beqz s1,8\nbnez s2,8\njmpsr 0", Ok(&[0x75040008, 0x76080004, 0x7103FFF8])),
    ("_:", Err((12, 1))),
    ("end\0", Err((12, 1))),
    ("end;\0\u{7f}", Ok(&[0x7A000000])),
];

/// Names, registers, operands and numbers.
const LINES: &[Row] = &[
    ("\tbeqz s1 , a - 4\n\nend\na:;x", Ok(&[0x75040004, 0x7A000000])),
    ("bnez v1,0", Err((12, 1))),
    ("bnez s63,-131072", Ok(&[0x76FE0000])),
    ("bnez s63,-131076", Err((12, 1))),
    ("jmp 131071", Ok(&[0x7001FFFF])),
    ("jmp 131072", Err((12, 1))),
    ("store16 s1 , -4 ( s63 )", Ok(&[0xA107FFE0])),
    ("store16 v1,(s0)", Err((12, 1))),
    ("loadv s1,(s0)", Err((12, 1))),
    ("load32 s1,(v0)", Err((12, 1))),
    ("load32 s63,(s0)", Err((12, 1))),
    ("store32 s63,255(s0)", Ok(&[0xA2FC07F8])),
    ("store32 s63,256(s0)", Err((12, 1))),
    ("store32 s63,0-0x100(s0)", Ok(&[0xA2FC0800])),
    ("clz s1,s2", Ok(&[0x0C042000])),
    ("clz s1,s2,s0", Err((12, 1))),
    ("move v1,s2", Ok(&[0x20042008])),
    ("move v1,v2", Ok(&[0x2004200C])),
    ("sext8 v1,s2", Err((12, 1))),
    ("shuffle v1,v2,v3", Ok(&[0x180420CE])),
    ("shuffle s1,v2,v3", Err((12, 1))),
    ("getlane s1,v2,s3", Ok(&[0x190420C4])),
    ("getlanei s1,v2,15", Ok(&[0x5904207A])),
    ("getlanei s1,s2,15", Err((12, 1))),
    ("movei s63,1", Err((12, 1))),
    ("moveil s1,0xFFFF", Ok(&[0x6007FFFC])),
    ("moveih s1,0xffFF", Ok(&[0x6107FFFC])),
    ("moveih s1,0XFFFF", Err((12, 1))),
    ("moveih s1,0x", Err((12, 1))),
    ("readcr s1,s2", Ok(&[0x79042000])),
    ("readcr s63,s2", Err((12, 1))),
    ("barrier v0,s1", Err((12, 1))),
    ("barrier s63,s1", Ok(&[0x78FC1000])),
    ("jret", Ok(&[0x72000000])),
    ("jret 0", Err((12, 1))),
    ("jret\t;", Ok(&[0x72000000])),
    ("jmpsr -(4-(2+a))\na:\nend", Ok(&[0x71000002, 0x7A000000])),
    ("Add s1,s2,s3", Err((12, 1))),
    ("add s01,s2,s3", Err((12, 1))),
    ("add s64,s2,s3", Err((12, 1))),
    // no register at all is malformed, before an unknown label; one that has no place there is not
    ("jmp b\nadd s64,s2,s3", Err((12, 2))),
    ("jmp b\nadd s01,s2,s3", Err((12, 2))),
    ("jmp b\nadd s63,s2,s3", Err((13, 1))),
    ("add s1 s2,s3", Err((12, 1))),
    ("add s1,s2,s3,", Err((12, 1))),
    ("addi s1,s2,(3", Err((12, 1))),
    ("addi s1,s2,3)", Err((12, 1))),
    ("addi s1,s2,+3", Err((12, 1))),
    ("addi s1,s2,3--3", Err((12, 1))),
    ("addi s1,s2,-(-3)", Ok(&[0x44042018])),
    ("addi s1,s2,s3", Err((12, 1))),
    ("add s1,s2,3", Err((12, 1))),
    ("load32 s1,4", Err((12, 1))),
    ("load32 s1,((s2))", Err((12, 1))),
    ("load32 s1,4+(s2)", Err((12, 1))),
    ("load32 s1,-(s2)", Err((12, 1))),
    ("load32 s1,s(s2)\ns:", Ok(&[0x82042020])),
    ("abcdefghijklmnop:\njmp abcdefghijklmnop", Ok(&[0x70000000])),
    ("abcdefghijklmnopq:", Err((12, 1))),
    ("jmp abcdefghijklmnopq", Err((12, 1))),
    ("end:\nend\njmp end", Ok(&[0x7A000000, 0x7003FFFC])),
    ("a1:", Err((12, 1))),
    ("1:", Err((12, 1))),
    ("x y:", Err((12, 1))),
    ("addi s1,s1,007", Ok(&[0x44041038])),
    ("addi s1,s1,12ab", Err((12, 1))),
    ("addi s1,s1,-2147483648+2147483648", Ok(&[0x44041000])),
    ("addi s1,s1,-2147483648-1", Err((14, 1))),
    ("addi s1,s1,(2147483649)-2147483649", Err((14, 1))),
    ("addi s1,s1,2147483649-2147483649", Err((14, 1))),
    ("addi s1,s1,1 2", Err((12, 1))),
    ("\r", Err((12, 1))),
    ("end\r", Err((12, 1))),
    (";\r", Err((1, 0))),
    ("jmp zz+99999999999", Err((13, 1))),
    ("jmp 99999999999+zz", Err((13, 1))),
    ("jmp 2147483648+1-zz", Err((13, 1))),
    ("jmp (((((((((zz)))))))))", Err((13, 1))),
    ("jmp ((((((((0))))))))+((((((((0))))))))", Ok(&[0x70000000])),
    ("jmp 99999999999\na:\na:", Err((13, 3))),
    ("a:\na:\nadd s1", Err((12, 3))),
    ("abcdefghijklmnop:\nend\nabcdefghijklmnoq:\njmp abcdefghijklmnoq", Ok(&[0x7A000000, 0x70000000])),
    ("ab:\nend\nabc:\njmp abc", Ok(&[0x7A000000, 0x70000000])),
    ("movei s1,a\na:\naddi s1,s1,a", Ok(&[0x62040010, 0x44041020])),
    ("addi s1,s1,0x0000000000000000001F", Ok(&[0x440410F8])),
    ("addi s1,s1,0x10000000000000001", Err((14, 1))),
    ("addi s1,s1,18446744073709551617", Err((14, 1))),
    ("cmpugti s1,v2,-256", Ok(&[0x54042802])),
    ("cmpugti v1,v2,1", Err((12, 1))),
    ("orii s1,s1,1", Err((12, 1))),
    ("cmpult s1,s2,v3", Ok(&[0x160420C2])),
    ("mulhu v1,v2,s3", Ok(&[0x080420CC])),
    ("mulhu v1,s2,v3", Ok(&[0x080420CA])),
    ("ashri s1,s1,256", Err((12, 1))),
    ("ashri s1,s1,255", Ok(&[0x490417F8])),
];

fn case(source: Vec<u8>, room: usize, becomes: Outcome) -> Case {
    Case { source, room, becomes }
}

/// The n-th label of two letters or three.
fn label(n: usize) -> String {
    let letter = |k: usize| (b'a' + (k % 26) as u8) as char;
    [letter(n / 676), letter(n / 26), letter(n)].iter().collect()
}

fn labels(count: usize) -> String {
    (0..count).map(|n| label(n) + ":\n").collect()
}

/// The lengths: of lines, labels, sources and buffers.
fn lengths() -> Vec<Case> {
    let end = 0x7A00_0000;
    let padded = |n: usize, with: &str| ("end".to_string() + &with.repeat(n)).into_bytes();
    let many = |n: usize| "end\n".repeat(n).into_bytes();
    let mut longer = many(16_384);
    longer.push(b' ');
    let mut unended = many(16_383);
    unended.extend(b"end;");
    let digits = |n: usize| format!("jmp {}", "9".repeat(n)).into_bytes();
    let zeros = |n: usize| format!("jmp {}", "0".repeat(n)).into_bytes();
    let sum = format!("jmp {}", "1+".repeat(32_765) + "1;");
    vec![
        case(padded(117, " "), 16, Ok(vec![end])),
        case(padded(118, " "), 16, Err((12, 1))),
        case(format!("end;{}", "x".repeat(116)).into_bytes(), 16, Ok(vec![end])),
        case(format!("end;{}\nend", "x".repeat(117)).into_bytes(), 16, Err((12, 1))),
        case(format!("end\n;{}", "x".repeat(120)).into_bytes(), 16, Err((12, 2))),
        case(format!("{}end", labels(256)).into_bytes(), 16, Ok(vec![end])),
        case(format!("{}end", labels(257)).into_bytes(), 16, Err((13, 257))),
        case(format!("jmp {}\n{}", label(256), labels(257)).into_bytes(), 16, Err((13, 258))),
        case(format!("jmp 99999999999\n{}", labels(257)).into_bytes(), 16, Err((13, 258))),
        case(format!("{}add s1", labels(257)).into_bytes(), 16, Err((12, 258))),
        case(format!("{}jmp {}", labels(256), label(255)).into_bytes(), 16, Ok(vec![0x7000_0000])),
        case(format!("{}aaa:", labels(256)).into_bytes(), 16, Err((13, 257))),
        case(many(16_384), 16_384, Ok(vec![end; 16_384])),
        case(many(16_384), 16_383, Err((18, 0))),
        case(unended, 16_384, Ok(vec![end; 16_384])),
        case(longer, 16_384, Err((12, 0))),
        case(vec![b'('; 65_536], 16, Err((12, 1))),
        case(vec![b'('; 65_537], 16, Err((12, 0))),
        case(sum.into_bytes(), 16, Err((12, 1))),
        case(vec![b';'; 120], 16, Err((1, 0))),
        case(vec![b'\n'; 65_536], 16, Err((1, 0))),
        case("a:\n".repeat(21_845).into_bytes(), 16, Err((13, 2))),
        case((0..13_000).map(|n| label(n) + ":\n").collect::<String>().into_bytes(), 16, Err((13, 257))),
        case(digits(99), 16, Err((14, 1))),
        case(zeros(99), 16, Ok(vec![0x7000_0000])),
        case(b"end".to_vec(), 1, Ok(vec![end])),
        case(b"end".to_vec(), 0, Err((18, 0))),
        case(b"".to_vec(), 0, Err((1, 0))),
        case(b"jmp x\nend".to_vec(), 0, Err((13, 1))),
    ]
}

pub fn all() -> Vec<Case> {
    let short = FIGURES.iter().chain(LINES).map(|(source, becomes)| case(source.as_bytes().to_vec(), 16, becomes.map(<[u32]>::to_vec)));
    short.chain(lengths()).collect()
}

#[cfg(test)]
mod tests {
    use super::*;
    use crate::assembler::{assemble, Names};

    /// The example programs as text become the words that lie beside them.
    #[test]
    fn examples() {
        let names = Names::new();
        for name in ["barrier", "sixteen-lanes", "spring-night", "frost"] {
            let read = |ending: &str| std::fs::read(format!("../examples/{name}.{ending}")).expect("an example");
            let words: Vec<u8> = assemble(&names, &read("s"), 16_384).expect(name).iter().flat_map(|w| w.to_le_bytes()).collect();
            assert_eq!(words, read("bin"), "{name}");
        }
    }

    #[test]
    fn boundaries() {
        let names = Names::new();
        for Case { source, room, becomes } in all() {
            let found = assemble(&names, &source, room).map_err(|(why, line)| (why.number(), line));
            assert_eq!(found, becomes, "{:?}", String::from_utf8_lossy(&source[..source.len().min(200)]));
        }
    }
}
