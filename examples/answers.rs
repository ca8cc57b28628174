//! Asks Verriblom a run of records of both fluids by one C call and prints what it answers.

extern "C" {
    fn verriblom_answers(
        records: *const u8,
        records_len: usize,
        out: *mut u8,
        out_len: usize,
        codes: *mut u32,
        codes_len: usize,
    ) -> u32;
}

/// A mark, its two numbers, and the unit of what it asks for.
type Question = (&'static str, f64, f64, &'static str);

const QUESTIONS: [Question; 7] = [
    ("TD", 250.0, 11.3, "Pa"),
    ("TA", 300.0, 50000.0, "mol/dm3"),
    ("TA", 500.0, 50000.0, "mol/dm3"),
    ("FD", 250.0, 11.0, "Pa"),
    ("FN", 0.0, 0.0, ""),
    ("FB", 300.0, 50000.0, "mol/dm3"),
    ("FD", 300.0, 1.0, "Pa"),
];

/// The last record is cut short: it lacks the number at its end.
const CUT: usize = 8;

fn put_record(records: &mut Vec<u8>, (mark, first, second, _): Question) {
    records.extend(mark.as_bytes());
    records.extend(first.to_le_bytes());
    records.extend(second.to_le_bytes());
}

/// Why a run is refused as a whole; nothing is written then.
fn refusal(code: u32) -> &'static str {
    match code {
        7 => "the output or the code list is too short",
        18 => "there are more than 4,096 records",
        _ => "unknown",
    }
}

/// The number in a record's eight bytes, where the code says that there is one.
fn answered(bytes: [u8; 8], code: u32) -> Result<f64, u32> {
    if code == 0 {
        Ok(f64::from_le_bytes(bytes))
    } else {
        Err(code)
    }
}

/// For each record the number that it asks for, or its refusal's number; or that of the whole run.
fn answers(records: &[u8]) -> Result<Vec<Result<f64, u32>>, u32> {
    let count = records.len().div_ceil(18);
    let mut out = vec![[0; 8]; count];
    let mut codes = vec![0; count];
    // The pointers are of lists that live through the call, with their own lengths.
    let code = unsafe {
        verriblom_answers(
            records.as_ptr(),
            records.len(),
            out.as_mut_ptr().cast(),
            8 * count,
            codes.as_mut_ptr(),
            count,
        )
    };
    if code != 0 {
        return Err(code);
    }
    let results = out.into_iter().zip(codes);
    Ok(results.map(|(bytes, code)| answered(bytes, code)).collect())
}

fn print_answer((mark, first, second, unit): Question, answer: Result<f64, u32>) {
    match answer {
        Ok(number) => println!("{mark} {first} {second}: {number:.6} {unit}"),
        Err(code) => println!("{mark} {first} {second}: refused, {code}"),
    }
}

fn main() {
    let mut records = Vec::new();
    for asked in QUESTIONS {
        put_record(&mut records, asked);
    }
    let answers = answers(&records[..records.len() - CUT]).unwrap_or_else(|code| {
        eprintln!("the run is refused, {code}: {}", refusal(code));
        std::process::exit(1)
    });
    for (asked, answer) in QUESTIONS.iter().zip(answers) {
        print_answer(*asked, answer);
    }
}
