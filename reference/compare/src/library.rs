//! The C library, as include/korvammel.h declares it.

use reference::image::{record_bytes as record_bytes_of, Form};
use reference::machine::{Record, Status, ZERO};
use reference::run::Ending;

/// A machine record in bytes: KORVAMMEL_RECORD of them.
pub type Opening = [u8; 92];

extern "C" {
    fn korvammel_read_word(word: u32, instruction: *mut u32) -> u32;
    fn korvammel_write_word(instruction: *const u32, word: *mut u32) -> u32;
    fn korvammel_name(instruction: *const u32, name: *mut u8) -> usize;
    fn korvammel_hex_import(text: *const u8, text_length: usize, program: *mut u32, program_length: usize, result: *mut usize) -> u32;
    fn korvammel_hex_export(program: *const u32, program_length: usize, text: *mut u8, text_length: usize, length: *mut usize) -> u32;
    fn korvammel_assemble(source: *const u8, source_length: usize, program: *mut u32, program_length: usize, result: *mut usize) -> u32;
    fn korvammel_start(mask: u32, registers: *mut u32, registers_length: usize, record: *mut u8) -> u32;
    fn korvammel_run(
        program: *const u32,
        program_length: usize,
        registers: *mut u32,
        registers_length: usize,
        memory: *mut u8,
        memory_length: usize,
        record: *mut u8,
        budget: u32,
        result: *mut u32,
    ) -> u32;
    fn korvammel_run_traced(
        program: *const u32,
        program_length: usize,
        registers: *mut u32,
        registers_length: usize,
        memory: *mut u8,
        memory_length: usize,
        record: *mut u8,
        budget: u32,
        rows: *mut u32,
        rows_length: usize,
        result: *mut u32,
    ) -> u32;
    fn korvammel_night_minute(
        program: *const u32,
        program_length: usize,
        registers: *mut u32,
        registers_length: usize,
        memory: *mut u8,
        memory_length: usize,
        record: *mut u8,
        kept: *mut u32,
        minute: u32,
        fall_back: u32,
        result: *mut u32,
    ) -> u32;
    fn korvammel_image_write(
        registers: *const u32,
        registers_length: usize,
        memory: *const u8,
        memory_length: usize,
        record: *const u8,
        image: *mut u8,
        image_length: usize,
    ) -> u32;
    fn korvammel_image_write_old(
        registers: *const u32,
        registers_length: usize,
        memory: *const u8,
        memory_length: usize,
        record: *const u8,
        drop: u32,
        image: *mut u8,
        image_length: usize,
    ) -> u32;
    fn korvammel_image_read(
        image: *const u8,
        image_length: usize,
        registers: *mut u32,
        registers_length: usize,
        memory: *mut u8,
        memory_length: usize,
        record: *mut u8,
    ) -> u32;
}

pub fn read_word(word: u32, instruction: &mut [u32; 6]) -> u32 {
    unsafe { korvammel_read_word(word, instruction.as_mut_ptr()) }
}

pub fn write_word(instruction: &[u32; 6], word: &mut u32) -> u32 {
    unsafe { korvammel_write_word(instruction.as_ptr(), word) }
}

/// The name, and nothing where the numbers have no word: the bytes then stay.
pub fn name(instruction: &[u32; 6]) -> Option<Vec<u8>> {
    let mut bytes = [1; 8];
    let length = unsafe { korvammel_name(instruction.as_ptr(), bytes.as_mut_ptr()) };
    if length == 0 {
        assert_eq!(bytes, [1; 8]);
        return None;
    }
    assert!(bytes[length..].iter().all(|b| *b == 0));
    Some(bytes[..length].to_vec())
}

pub fn hex_import(text: &[u8], program: &mut [u32], result: &mut [usize; 2]) -> u32 {
    unsafe { korvammel_hex_import(text.as_ptr(), text.len(), program.as_mut_ptr(), program.len(), result.as_mut_ptr()) }
}

pub fn hex_export(program: &[u32], text: &mut [u8], length: &mut usize) -> u32 {
    unsafe { korvammel_hex_export(program.as_ptr(), program.len(), text.as_mut_ptr(), text.len(), length) }
}

pub fn assemble(source: &[u8], program: &mut [u32], result: &mut [usize; 2]) -> u32 {
    unsafe { korvammel_assemble(source.as_ptr(), source.len(), program.as_mut_ptr(), program.len(), result.as_mut_ptr()) }
}

pub fn start(mask: u32, registers: &mut [u32], record: &mut Opening) -> u32 {
    unsafe { korvammel_start(mask, registers.as_mut_ptr(), registers.len(), record.as_mut_ptr()) }
}

pub fn run(program: &[u32], registers: &mut [u32], memory: &mut [u8], record: &mut Opening, budget: u32, result: &mut [u32; 4]) -> u32 {
    unsafe {
        korvammel_run(
            program.as_ptr(),
            program.len(),
            registers.as_mut_ptr(),
            registers.len(),
            memory.as_mut_ptr(),
            memory.len(),
            record.as_mut_ptr(),
            budget,
            result.as_mut_ptr(),
        )
    }
}

pub fn run_traced(
    program: &[u32],
    registers: &mut [u32],
    memory: &mut [u8],
    record: &mut Opening,
    budget: u32,
    rows: &mut [u32],
    result: &mut [u32; 4],
) -> u32 {
    unsafe {
        korvammel_run_traced(
            program.as_ptr(),
            program.len(),
            registers.as_mut_ptr(),
            registers.len(),
            memory.as_mut_ptr(),
            memory.len(),
            record.as_mut_ptr(),
            budget,
            rows.as_mut_ptr(),
            rows.len(),
            result.as_mut_ptr(),
        )
    }
}

#[allow(clippy::too_many_arguments)]
pub fn night_minute(
    program: &[u32],
    registers: &mut [u32],
    memory: &mut [u8],
    record: &mut Opening,
    kept: &mut [u32; 2],
    minute: u32,
    fall_back: u32,
    result: &mut [u32; 2],
) -> u32 {
    unsafe {
        korvammel_night_minute(
            program.as_ptr(),
            program.len(),
            registers.as_mut_ptr(),
            registers.len(),
            memory.as_mut_ptr(),
            memory.len(),
            record.as_mut_ptr(),
            kept.as_mut_ptr(),
            minute,
            fall_back,
            result.as_mut_ptr(),
        )
    }
}

pub fn image_write(registers: &[u32], memory: &[u8], record: &Opening, image: &mut [u8]) -> u32 {
    unsafe {
        korvammel_image_write(
            registers.as_ptr(),
            registers.len(),
            memory.as_ptr(),
            memory.len(),
            record.as_ptr(),
            image.as_mut_ptr(),
            image.len(),
        )
    }
}

pub fn image_write_old(registers: &[u32], memory: &[u8], record: &Opening, drop: u32, image: &mut [u8]) -> u32 {
    unsafe {
        korvammel_image_write_old(
            registers.as_ptr(),
            registers.len(),
            memory.as_ptr(),
            memory.len(),
            record.as_ptr(),
            drop,
            image.as_mut_ptr(),
            image.len(),
        )
    }
}

pub fn image_read(image: &[u8], registers: &mut [u32], memory: &mut [u8], record: &mut Opening) -> u32 {
    unsafe {
        korvammel_image_read(
            image.as_ptr(),
            image.len(),
            registers.as_mut_ptr(),
            registers.len(),
            memory.as_mut_ptr(),
            memory.len(),
            record.as_mut_ptr(),
        )
    }
}

/// A record's bytes, as the image begins.
pub fn record_bytes(record: &Record) -> Opening {
    record_bytes_of(Form::Newest, record).try_into().expect("92 bytes")
}

pub fn zero_bytes() -> Opening {
    record_bytes(&ZERO)
}

/// The number of an ending, as the header has it.
pub fn ending_number(ending: Ending) -> u32 {
    match ending {
        Ending::Stopped => 1,
        Ending::Stuck => 2,
        Ending::Spent => 3,
    }
}

/// A record that need not be well formed, from numbers that its type can hold.
pub fn any_status(kind: u64, x: u8, y: u8) -> Status {
    match kind {
        0 => Status::Idle,
        1 => Status::Ended,
        2 => Status::Trapped(x),
        3 => Status::Waiting { id: x, count: y },
        _ => Status::Running,
    }
}
