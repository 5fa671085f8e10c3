//! Programs in Intel HEX (document 02, T-06).

/// A refusal's number, and the line it names, counted from 1; 0 where it names none.
#[derive(Clone, Copy, Debug, PartialEq, Eq)]
pub struct Refusal {
    pub number: u8,
    pub line: usize,
}

/// "types 00, 01 and 04": bytes at an offset, the end, and the address that offsets count from.
enum Record {
    Data(u64, Vec<u8>),
    End,
    Base(u64),
}

/// "hex is upper case"
fn digit(byte: u8) -> Option<u8> {
    match byte {
        b'0'..=b'9' => Some(byte - b'0'),
        b'A'..=b'F' => Some(byte - b'A' + 10),
        _ => None,
    }
}

/// What a line with its end says; none for a bad record.
fn record(line: &[u8]) -> Option<Record> {
    // "every line ends in LF or CR LF"
    let line = line.strip_suffix(b"\n")?;
    let line = line.strip_suffix(b"\r").unwrap_or(line);
    let digits: Vec<u8> = line.strip_prefix(b":")?.iter().map(|b| digit(*b)).collect::<Option<_>>()?;
    let pairs = digits.chunks_exact(2);
    if !pairs.remainder().is_empty() {
        return None;
    }
    let bytes: Vec<u8> = pairs.map(|d| 16 * d[0] + d[1]).collect();
    let [length, high, low, kind, data @ .., _] = &bytes[..] else { return None };
    if *length as usize != data.len() || sum(&bytes) != 0 {
        return None;
    }
    // "(the last two with address 0), 1 to 255 data bytes a record"
    match (kind, u16::from_be_bytes([*high, *low]), data) {
        (0, offset, [_, ..]) => Some(Record::Data(offset.into(), data.to_vec())),
        (1, 0, []) => Some(Record::End),
        (4, 0, [high, low]) => Some(Record::Base(u64::from(u16::from_be_bytes([*high, *low])) << 16)),
        _ => None,
    }
}

/// A record's bytes with its checksum have the sum 0.
fn sum(bytes: &[u8]) -> u8 {
    bytes.iter().fold(0, |sum, byte| sum.wrapping_add(*byte))
}

/// Reads a text's program into the start of `words`, and gives its number of words.
pub fn import(text: &[u8], words: &mut [u32]) -> Result<usize, Refusal> {
    let records: Vec<_> = text.split_inclusive(|b| *b == b'\n').map(record).collect();
    let mut faults = vec![];
    // "17 no end record (seen past the last line) or anything after it"
    match records.iter().position(|r| matches!(r, Some(Record::End))) {
        None => faults.push((records.len() + 1, 17)),
        Some(end) if end + 1 < records.len() => faults.push((end + 2, 17)),
        Some(_) => {}
    }
    let (mut base, mut end, mut pieces) = (0, 0, vec![]);
    for (line, record) in (1..).zip(&records) {
        match record {
            // "15 bad record or checksum"
            None => faults.push((line, 15)),
            Some(Record::End) => {}
            Some(Record::Base(address)) => base = *address,
            Some(Record::Data(offset, bytes)) => {
                // "16 order, overlap or wrap past FFFF"
                if base + offset < end || offset + bytes.len() as u64 > 0x1_0000 {
                    faults.push((line, 16));
                }
                end = base + offset + bytes.len() as u64;
                pieces.push((base + offset, bytes));
            }
        }
    }
    // "the first in the file, on one line 17, 15, 16"
    let first = faults.iter().min_by_key(|(line, number)| (*line, [17, 15, 16].iter().position(|n| n == number)));
    if let Some((line, number)) = first {
        return Err(Refusal { number: *number, line: *line });
    }
    // "then 1 for size or part words; then 18 buffer too short"
    if end == 0 || end > 4 * 16_384 || end % 4 != 0 {
        return Err(Refusal { number: 1, line: 0 });
    }
    let count = end as usize / 4;
    if words.len() < count {
        return Err(Refusal { number: 18, line: 0 });
    }
    // "gaps read as zero bytes. Words are little endian from address 0"
    let mut program = vec![0; end as usize];
    for (start, bytes) in pieces {
        program[start as usize..][..bytes.len()].copy_from_slice(bytes);
    }
    words.iter_mut().zip(program.chunks(4)).for_each(|(word, b)| *word = u32::from_le_bytes([b[0], b[1], b[2], b[3]]));
    Ok(count)
}

/// A record as its line.
fn line(kind: u8, offset: usize, data: &[u8]) -> String {
    let mut bytes = vec![data.len() as u8, (offset >> 8) as u8, offset as u8, kind];
    bytes.extend(data);
    bytes.push(sum(&bytes).wrapping_neg());
    let hex: String = bytes.iter().map(|b| format!("{b:02X}")).collect();
    format!(":{hex}\n")
}

/// "Export uses 16 data bytes a record, the last may be shorter, with LF and no type 04": the text's length, the text put in the buffer.
pub fn export(words: &[u32], buffer: &mut [u8]) -> Result<usize, u8> {
    if words.is_empty() || words.len() > 16_384 {
        return Err(1);
    }
    let bytes: Vec<u8> = words.iter().flat_map(|word| word.to_le_bytes()).collect();
    let mut text: String = (0..).step_by(16).zip(bytes.chunks(16)).map(|(offset, data)| line(0, offset, data)).collect();
    text += &line(1, 0, &[]);
    buffer.get_mut(..text.len()).ok_or(18)?.copy_from_slice(text.as_bytes());
    Ok(text.len())
}

#[cfg(test)]
mod tests {
    use super::*;

    /// The words, or the number and the line; checks that all other places stay.
    fn read(text: &str, room: usize) -> Result<Vec<u32>, (u8, usize)> {
        let mut words = vec![7; room];
        let answer = import(text.as_bytes(), &mut words).map_err(|r| (r.number, r.line));
        assert!(words[*answer.as_ref().unwrap_or(&0)..].iter().all(|w| *w == 7));
        answer.map(|count| words[..count].to_vec())
    }

    const ADD: &str = ":0400000080100C045C\n";
    const END: &str = ":00000001FF\n";

    #[test]
    fn both_ways() {
        let words = [0x040C_1080, 0, 0x2100_0000, 0x7A00_0000, 0x7A00_0000];
        let text = format!(":1000000080100C0400000000000000210000007AB5\n:040010000000007A72\n{END}");
        let mut buffer = vec![b'x'; text.len() + 1];
        assert_eq!(export(&words, &mut buffer), Ok(44 + 20 + 12));
        assert_eq!(buffer, format!("{text}x").as_bytes());
        assert_eq!(read(&text, 6), Ok(words.to_vec()));
        assert_eq!(read(&text.replace('\n', "\r\n"), 5), Ok(words.to_vec()));
        assert_eq!(read(&text, 4), Err((18, 0)));
        assert_eq!(export(&words, &mut buffer[..75]), Err(18));
        assert_eq!(buffer, format!("{text}x").as_bytes());
        assert_eq!((export(&[], &mut []), export(&[0; 16_385], &mut [])), (Err(1), Err(1)));
        let whole: Vec<u32> = (0..16_384).map(|i: u32| i.wrapping_mul(2_654_435_761)).collect();
        let mut buffer = vec![0; 4096 * 44 + 12];
        export(&whole, &mut buffer).unwrap();
        assert_eq!(read(std::str::from_utf8(&buffer).unwrap(), 16_384), Ok(whole));
    }

    #[test]
    fn gaps_and_sizes() {
        let words = read(&format!(":10010000214601360121470136007EFE09D2190140\n{END}"), 68).unwrap();
        assert_eq!((words.len(), words[63], words[64], words[67]), (68, 0, 0x3601_4621, 0x0119_D209));
        // two bytes in the middle of a word, and one at the end of the next
        assert_eq!(read(&format!(":020001001122CA\n:0100070033C5\n{END}"), 2), Ok(vec![0x0022_1100, 0x3300_0000]));
        assert_eq!([":020001001122CA\n", ""].map(|data| read(&format!("{data}{END}"), 2)), [Err((1, 0)), Err((1, 0))]);
        assert_eq!(read(&format!(":01FFFF000001\n{END}"), 16_384), Ok(vec![0; 16_384]));
        assert_eq!(read(&format!("{ADD}:020000040800F2\n{ADD}{END}"), 0), Err((1, 0)));
    }

    #[test]
    fn bad_records() {
        // colon, digits and length; then types and addresses, with the right sum; then bases, CR and checksums
        let bad = ["", ":", ":00", ":00000000", "00000001FF", "::00000001FF", ":00000001FF0", ":00000001Ff", ": 00000001FF", ":01000001FE"];
        let kinds = [":0000000000", ":00000002FE", ":00000003FD", ":00000005FB", ":00000101FE", ":0100000100FE", ":0200010400F9"];
        let others = [":020001040000F9", ":0100000400FB", ":03000004000000F9", ":00000001FF\r\r", ":0000\r0001FF", ":00000001FE"];
        for text in bad.iter().chain(&kinds).chain(&others) {
            assert_eq!(read(&format!("{ADD}{text}\n{END}"), 2), Err((15, 2)), "{text}");
        }
        assert_eq!(["", "\r"].map(|end| read(&format!("{ADD}:00000001FF{end}"), 2)), [Err((15, 2)), Err((15, 2))]);
    }

    #[test]
    fn order_and_end() {
        // 4 touches, 3 overlaps; a base may go back, but not the data
        assert_eq!(read(&format!("{ADD}:0400040000000000F8\n{END}"), 2), Ok(vec![0x040C_1080, 0]));
        assert_eq!(read(&format!("{ADD}:0400030000000000F9\n{END}"), 2), Err((16, 2)));
        let back = format!(":020000040001F9\n{ADD}:020000040000FA\n");
        assert_eq!([END, ADD].map(|next| read(&format!("{back}{next}"), 0)), [Err((1, 0)), Err((16, 4))]);
        // a base holds until the next one
        assert_eq!(read(&format!(":020000040001F9\n{ADD}:0400040000000000F8\n{END}"), 0), Err((1, 0)));
        // a wrap, with a wrong checksum and before a bad line
        assert_eq!(read(&format!(":02FFFF00000001\n{END}"), 2), Err((15, 1)));
        assert_eq!(read(&format!(":02FFFF00000000\n\n{END}"), 2), Err((16, 1)));
        assert_eq!((read("", 2), read(ADD, 2), read(&format!("{ADD}{ADD}"), 2)), (Err((17, 1)), Err((17, 2)), Err((16, 2))));
        for after in ["\n", "\r", "x", END, ADD] {
            assert_eq!(read(&format!("{ADD}{END}{after}"), 2), Err((17, 3)));
        }
    }
}
