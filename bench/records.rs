//! The C calls in Rust, in the package's form: a record read, its inputs tested, the pressure worked or the density
//! searched; a run of records, one after the other; and a record written.
use super::{state_at, state_pressure};
use crate::fluids::{fluid_numbered, Fluid, Range};
use crate::searches::rust_plain;

fn finite(x: f64) -> Result<f64, u32> {
    if x.is_nan() {
        Err(12)
    } else {
        Ok(x)
    }
}

/// The search's own refusals, 8 and 12, are met by no record.
fn search(number: u32, fluid: &Fluid, t: f64, p: f64, above: bool) -> Result<f64, u32> {
    finite(rust_plain(number, t, p, fluid.top, u32::from(above))).map_err(|_| 8)
}

fn pressure(fluid: &'static Fluid, t: f64, rho: f64) -> Result<f64, u32> {
    finite(state_pressure(&state_at(fluid, t, if rho == 0.0 { 0.0 } else { rho })))
}

fn tested(fluid: &Fluid, t: f64, x: f64, second: &Range, outside: u32) -> Result<(), u32> {
    if !t.is_finite() || !x.is_finite() {
        Err(2)
    } else if !fluid.t.has(t) {
        Err(3)
    } else if !second.has(x) {
        Err(outside)
    } else {
        Ok(())
    }
}

/// A mark's first letter names the fluid.
fn number_lettered(letter: u8) -> Result<u32, u32> {
    match letter {
        b'T' => Ok(0),
        b'F' => Ok(1),
        _ => Err(14),
    }
}

fn answered(record: &[u8], room: usize) -> Result<f64, u32> {
    let record: &[u8; 18] = record.try_into().map_err(|_| 15u32)?;
    let bits = |from: usize| f64::from_le_bytes(core::array::from_fn(|k| record[from + k]));
    let (t, x) = (bits(2), bits(10));
    let number = number_lettered(record[0])?;
    let fluid = fluid_numbered(number).ok_or(14u32)?;
    match record[1] {
        b'D' => tested(fluid, t, x, &fluid.rho, 4)?,
        b'B' | b'A' | b'P' => tested(fluid, t, x, &fluid.p, 5)?,
        b'N' => return Err(1),
        _ => return Err(14),
    }
    if room < 8 {
        return Err(7);
    }
    match record[1] {
        b'D' => pressure(fluid, t, x),
        side => search(number, fluid, t, x, side == b'A'),
    }
}

/// The code; and, where it is 0, the number's bits in the output.
fn put_answer(record: &[u8], out: &mut [u8]) -> u32 {
    match (answered(record, out.len()), out.first_chunk_mut()) {
        (Ok(number), Some(first)) => {
            *first = number.to_le_bytes();
            0
        }
        (Ok(_), None) => 7,
        (Err(code), _) => code,
    }
}

/// # Safety
///
/// `record` and `out` point to that many bytes.
#[no_mangle]
pub unsafe extern "C" fn rust_answer(
    record: *const u8,
    record_len: usize,
    out: *mut u8,
    out_len: usize,
) -> u32 {
    put_answer(
        core::slice::from_raw_parts(record, record_len),
        core::slice::from_raw_parts_mut(out, out_len),
    )
}

/// # Safety
///
/// `records` and `out` point to that many bytes, and `codes` to that many places.
#[no_mangle]
pub unsafe extern "C" fn rust_answers(
    records: *const u8,
    records_len: usize,
    out: *mut u8,
    out_len: usize,
    codes: *mut u32,
    codes_len: usize,
) -> u32 {
    let count = records_len.div_ceil(18);
    if out_len / 8 < count || codes_len < count {
        return 7;
    }
    if count > 4096 {
        return 18;
    }
    let records = core::slice::from_raw_parts(records, records_len).chunks(18);
    let out = core::slice::from_raw_parts_mut(out, out_len).chunks_exact_mut(8);
    let codes = core::slice::from_raw_parts_mut(codes, codes_len);
    for ((record, out), code) in records.zip(out).zip(codes) {
        *code = put_answer(record, out);
    }
    0
}

fn kind_lettered(code: u32) -> Result<u8, u32> {
    match u8::try_from(code) {
        Ok(letter @ (b'D' | b'B' | b'A' | b'P' | b'N')) => Ok(letter),
        _ => Err(14),
    }
}

fn letter_numbered(number: u32) -> Result<u8, u32> {
    match number {
        0 => Ok(b'T'),
        1 => Ok(b'F'),
        _ => Err(17),
    }
}

fn room_at(buffer: &mut [u8], place: usize) -> Result<&mut [u8; 18], u32> {
    buffer.get_mut(place..).and_then(|rest| rest.first_chunk_mut()).ok_or(7)
}

/// A record without a reading has zeros for its numbers.
fn put_record(letters: [u8; 2], words: [u64; 2], out: &mut [u8; 18]) {
    let [first, second] = if letters[1] == b'N' { [0; 2] } else { words };
    out[..2].copy_from_slice(&letters);
    out[2..10].copy_from_slice(&first.to_le_bytes());
    out[10..].copy_from_slice(&second.to_le_bytes());
}

fn written(kind: u32, fluid: u32, words: [u64; 2], buffer: &mut [u8], place: usize) -> Result<(), u32> {
    let kind = kind_lettered(kind)?;
    let fluid = letter_numbered(fluid)?;
    put_record([fluid, kind], words, room_at(buffer, place)?);
    Ok(())
}

/// # Safety
///
/// `buffer` points to that many bytes.
#[no_mangle]
pub unsafe extern "C" fn rust_write(
    kind: u32,
    fluid: u32,
    first: u64,
    second: u64,
    buffer: *mut u8,
    buffer_len: usize,
    place: usize,
) -> u32 {
    let buffer = core::slice::from_raw_parts_mut(buffer, buffer_len);
    written(kind, fluid, [first, second], buffer, place).err().unwrap_or(0)
}
