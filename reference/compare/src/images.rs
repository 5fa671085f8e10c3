//! Images written and read, in both forms: of records well formed or not, whole or damaged, in buffers of right and wrong length.

use crate::library::{self, record_bytes, zero_bytes, Opening};
use crate::records::{any_record, damaged, stand_in, Verdicts};
use compare::random::Random;
use compare::report::{same, Tally};
use reference::image::{self, Form};
use reference::machine::{start, Record, ROOM_WORDS};

pub fn both_ways(seed: u64, verdicts: &Verdicts, tally: &mut Tally) {
    let mut random = Random::new(seed ^ 0x496D_6167);
    let blocks = if random.one_in(200) { random.below(1026) as usize } else { 1 + random.below(3) as usize };
    let bytes = 64 * blocks + if random.one_in(30) { random.below(64) as usize } else { 0 };
    let memory: Vec<u8> = (0..bytes).map(|_| random.word() as u8).collect();
    let words = if random.one_in(30) { ROOM_WORDS - 1 + 2 * random.below(2) as usize } else { ROOM_WORDS };
    let room: Vec<u32> = (0..words).map(|i| i as u32 ^ seed as u32).collect();
    let mut record = any_record(&mut random);
    if random.one_in(3) {
        // no counts, or one
        record.turns = [0; 8];
        record.turns[random.below(8) as usize] = random.of(&[0, 0, 1, 256, 0x8000_0000]);
    }
    let opening = damaged(&mut random, record_bytes(&record));
    let form = random.of(&[Form::Newest, Form::Old]);
    write(&mut random, form, &room, &memory, &record, &opening, verdicts, tally);
    let form = random.of(&[Form::Newest, Form::Old]);
    read(&mut random, seed, form, room, memory, &opening, tally);
}

/// The other form.
fn other(form: Form) -> Form {
    match form {
        Form::Newest => Form::Old,
        Form::Old => Form::Newest,
    }
}

#[allow(clippy::too_many_arguments)]
fn write(
    random: &mut Random,
    form: Form,
    room: &[u32],
    memory: &[u8],
    record: &Record,
    opening: &Opening,
    verdicts: &Verdicts,
    tally: &mut Tally,
) {
    let sized = if random.one_in(30) { other(form) } else { form };
    let length = image::length(sized, memory.len()) + if random.one_in(30) { 1 } else { 0 };
    let (mut buffer, mut buffer2) = (vec![5; length], vec![5; length]);
    let verdict = verdicts.of(opening);
    let taken = verdict.unwrap_or(stand_in(record, opening));
    let drop = random.of(&[0, 0, 1, 256, 0x8000_0000]);
    let written = match form {
        Form::Newest => image::write(room, memory, &taken, &mut buffer),
        Form::Old => image::write_old(room, memory, &taken, drop != 0, &mut buffer),
    };
    let written = written.err().unwrap_or(0) as u32;
    // the second program finds a record that is not to be taken last, whatever is wrong with it
    let expected = if written == 4 { verdict.err().unwrap_or(4) } else { written };
    let number = match form {
        Form::Newest => library::image_write(room, memory, opening, &mut buffer2),
        Form::Old => library::image_write_old(room, memory, opening, drop, &mut buffer2),
    };
    assert_eq!(expected, number, "{form:?} written with record {opening:?}");
    same("image byte", &buffer, &buffer2);
    tally.met(number);
}

/// The bytes of a record in a form: of the old one the same, with its mark and without counts, as far as they were whole.
fn opening_in(form: Form, opening: &Opening) -> Vec<u8> {
    match form {
        Form::Newest => opening.to_vec(),
        Form::Old => {
            let mut old = opening[..4].to_vec();
            for entry in opening[4..].chunks(11) {
                old.extend(&entry[..7]);
                let mark = old.len() - 6;
                if old[mark] == b'I' {
                    old[mark] = b'H';
                }
            }
            old
        }
    }
}

fn read(random: &mut Random, seed: u64, form: Form, mut room: Vec<u32>, mut memory: Vec<u8>, opening: &Opening, tally: &mut Tally) {
    // an image that opens with these bytes, and some damage
    let mut picture = vec![0; image::length(form, memory.len())];
    let fine = start(1, &mut vec![0; ROOM_WORDS]).expect("mask 1");
    let filled = vec![seed as u32; ROOM_WORDS];
    let written = match form {
        Form::Newest => image::write(&filled, &memory, &fine, &mut picture),
        Form::Old => image::write_old(&filled, &memory, &fine, false, &mut picture),
    };
    if written.is_ok() {
        let opening = opening_in(form, opening);
        picture[..opening.len()].copy_from_slice(&opening);
        if random.one_in(20) {
            // the other form's mark
            picture[5] ^= b'H' ^ b'I';
        }
        for _ in 0..random.below(3) {
            let near = random.of(&[opening.len(), 2200, 36_980, picture.len()]).min(picture.len());
            let at = random.below(near as u64) as usize;
            picture[at] = if random.one_in(2) { random.below(6) as u8 } else { random.word() as u8 };
        }
    }
    if random.one_in(30) {
        picture.pop();
    }
    let (mut room2, mut memory2, mut record2) = (room.clone(), memory.clone(), [9; 92]);
    let expected = match image::read(&picture, &mut room, &mut memory) {
        Ok(r) => (0, record_bytes(&r)),
        Err(n) => (n as u32, zero_bytes()),
    };
    let number = library::image_read(&picture, &mut room2, &mut memory2, &mut record2);
    assert_eq!((number, record2), expected, "{form:?} read");
    same("restored register word", &room, &room2);
    same("restored memory byte", &memory, &memory2);
    tally.met(number);
    if number == 0 {
        again(form, &picture, room2, memory2, record2);
    }
}

/// "reading then writing an accepted image the same bytes", and "old to new to old gives the first bytes".
fn again(form: Form, picture: &[u8], mut room: Vec<u32>, mut memory: Vec<u8>, mut record: Opening) {
    if form == Form::Old {
        let mut newest = vec![3; image::length(Form::Newest, memory.len())];
        assert_eq!(library::image_write(&room, &memory, &record, &mut newest), 0);
        (room, memory, record) = (vec![7; ROOM_WORDS], vec![7; memory.len()], [7; 92]);
        assert_eq!(library::image_read(&newest, &mut room, &mut memory, &mut record), 0);
    }
    let mut written = vec![3; picture.len()];
    let number = match form {
        Form::Newest => library::image_write(&room, &memory, &record, &mut written),
        Form::Old => library::image_write_old(&room, &memory, &record, 0, &mut written),
    };
    assert_eq!(number, 0);
    same("byte of an image that was read", picture, &written);
}
