//! Asks Verriblom records of both fluids by its C call and prints what it answers.

extern "C" {
    fn verriblom_answer(record: *const u8, record_len: usize, out: *mut u8, out_len: usize) -> u32;
}

/// The number that a record asks for, or the refusal's number.
fn answer(mark: &[u8; 2], first: f64, second: f64) -> Result<f64, u32> {
    let mut record = [0; 18];
    record[..2].copy_from_slice(mark);
    record[2..10].copy_from_slice(&first.to_le_bytes());
    record[10..].copy_from_slice(&second.to_le_bytes());
    let mut out = [0; 8];
    // Both pointers are of arrays that live through the call, with their own lengths.
    let code =
        unsafe { verriblom_answer(record.as_ptr(), record.len(), out.as_mut_ptr(), out.len()) };
    if code == 0 {
        Ok(f64::from_le_bytes(out))
    } else {
        Err(code)
    }
}

fn ask(mark: &[u8; 2], first: f64, second: f64, unit: &str) {
    let letters = String::from_utf8_lossy(mark);
    match answer(mark, first, second) {
        Ok(number) => println!("{letters} {first} {second}: {number:.6} {unit}"),
        Err(code) => println!("{letters} {first} {second}: refused, {code}"),
    }
}

fn main() {
    ask(b"TD", 250.0, 11.3, "Pa");
    ask(b"TB", 300.0, 50000.0, "mol/dm3");
    ask(b"TA", 300.0, 50000.0, "mol/dm3");
    ask(b"TA", 500.0, 50000.0, "mol/dm3");
    ask(b"FD", 250.0, 11.0, "Pa");
    ask(b"FB", 300.0, 50000.0, "mol/dm3");
    ask(b"FA", 300.0, 50000.0, "mol/dm3");
    ask(b"FA", 300.0, 150000000.0, "mol/dm3");
    ask(b"FN", 0.0, 0.0, "");
}
