//! What the lister prints (document 01, "Lister").

use crate::word::{name, read, Reading};

/// The listing of a program's bytes.
pub fn listing(input: &[u8]) -> String {
    if input.is_empty() || input.len() % 4 != 0 || input.len() > 4 * 16384 {
        return "refused 1\n".to_string();
    }
    let mut text = format!("words {}\n", input.len() / 4);
    for (i, b) in input.chunks(4).enumerate() {
        let word = u32::from_le_bytes([b[0], b[1], b[2], b[3]]);
        let name = match read(word) {
            Reading::Defined(instruction) => name(instruction),
            Reading::Undefined => "undefined".to_string(),
            Reading::NotFitted => "not-fitted".to_string(),
        };
        text += &format!("{:08X} {:08X} {}\n", 4 * i, word, name);
    }
    text
}

#[cfg(test)]
mod tests {
    use super::*;

    /// T-08: "0x2D000000 takes its place as not fitted", and 0x21000000 "becomes fadd, in the lister too"
    #[test]
    fn figure() {
        let input = [0x80, 0x10, 0x0C, 0x04, 0, 0, 0, 0, 0, 0, 0, 0x2D, 0, 0, 0, 0x7A];
        let text = "words 4\n00000000 040C1080 add\n00000004 00000000 undefined\n00000008 2D000000 not-fitted\n0000000C 7A000000 end\n";
        assert_eq!(listing(&input), text);
        assert_eq!(listing(&[0, 0, 0, 0x21]), "words 1\n00000000 21000000 fadd\n");
        for bad in [&input[..0], &input[..3]] {
            assert_eq!(listing(bad), "refused 1\n");
        }
    }
}
