//! Writes records of both fluids by Verriblom's C call, one after the other into one buffer, and
//! the buffer into the file states.rec, which the program answers reads.

extern "C" {
    fn verriblom_write(
        kind: u32,
        fluid: u32,
        first: u64,
        second: u64,
        buffer: *mut u8,
        buffer_len: usize,
        place: usize,
    ) -> u32;
}

const RECORD_BYTES: usize = 18;

/// A mark's second letter, a fluid's number, and the two numbers.
type State = (u8, u32, f64, f64);

/// The one without a reading is handed numbers that it does not carry.
const STATES: [State; 9] = [
    (b'D', 0, 250.0, 11.3),
    (b'B', 0, 300.0, 50000.0),
    (b'A', 0, 300.0, 50000.0),
    (b'N', 0, 300.0, 50000.0),
    (b'D', 1, 250.0, 11.0),
    (b'B', 1, 300.0, 50000.0),
    (b'A', 1, 300.0, 150000000.0),
    (b'P', 1, 300.0, 50000.0),
    (b'A', 0, 500.0, 50000.0),
];

const OF_NO_FLUID: State = (b'D', 2, 250.0, 11.3);

/// Writes the record at the place, or gives the refusal's number and leaves the buffer as it was.
fn write(buffer: &mut [u8], place: usize, (kind, fluid, first, second): State) -> Result<(), u32> {
    // The pointer is of a buffer that lives through the call, with its own length.
    let code = unsafe {
        verriblom_write(
            kind.into(),
            fluid,
            first.to_bits(),
            second.to_bits(),
            buffer.as_mut_ptr(),
            buffer.len(),
            place,
        )
    };
    if code == 0 {
        Ok(())
    } else {
        Err(code)
    }
}

fn print_record(record: &[u8]) {
    for byte in record {
        print!(" {byte:02x}");
    }
    println!();
}

/// Whether the record is written; where it is refused the buffer stays as it was.
fn put(buffer: &mut [u8], place: usize, state: State) -> bool {
    let (kind, fluid, first, second) = state;
    let written = write(buffer, place, state);
    print!("{} {fluid} {first} {second} at {place}:", kind as char);
    match written {
        Ok(()) => print_record(&buffer[place..place + RECORD_BYTES]),
        Err(code) => println!(" refused, {code}"),
    }
    written.is_ok()
}

fn put_all(buffer: &mut [u8]) -> bool {
    let mut places = (0..).step_by(RECORD_BYTES).zip(STATES.iter());
    places.all(|(place, state)| put(buffer, place, *state))
}

/// Ends the program, as there is no file.
fn give_up(why: &str) -> ! {
    eprintln!("{why}");
    std::process::exit(1)
}

fn main() {
    let mut buffer = [0; STATES.len() * RECORD_BYTES];
    if !put_all(&mut buffer) {
        give_up("a record is refused, and no file is written");
    }
    // Both are refused: there is no such fluid, and no room after the last record.
    let end = buffer.len();
    put(&mut buffer, 0, OF_NO_FLUID);
    put(&mut buffer, end, STATES[0]);
    if let Err(error) = std::fs::write("states.rec", buffer) {
        give_up(&format!("states.rec: {error}"));
    }
    println!("states.rec: {} records", STATES.len());
}
