//! Asks Verriblom for saturation pairs of both fluids and prints them, and whether it accepts pairs that are proposed.

extern "C" {
    fn verriblom_saturation(fluid: u32, t: f64, out: *mut u8, out_len: usize) -> u32;
    fn verriblom_accept(fluid: u32, t: f64, liquid: f64, vapour: f64) -> u32;
}

/// A name, a fluid's number and a temperature in K.
type Question = (&'static str, u32, f64);

const QUESTIONS: [Question; 7] = [
    ("R-245ca", 0, 300.0),
    ("R-245ca", 0, 440.0),
    ("R-245ca", 0, 450.0),
    ("R-245fa", 1, 250.0),
    ("R-245fa", 1, 427.01),
    ("R-245fa", 1, 100.0),
    ("fluid 2", 2, 300.0),
];

/// The densities of the liquid and of the vapour, mol/dm3, or the refusal's number.
fn saturation(fluid: u32, t: f64) -> Result<(f64, f64), u32> {
    let mut out = [[0; 8]; 2];
    // The pointer is of an array that lives through the call, with its own length.
    let code = unsafe { verriblom_saturation(fluid, t, out.as_mut_ptr().cast(), 16) };
    if code != 0 {
        return Err(code);
    }
    Ok((f64::from_le_bytes(out[0]), f64::from_le_bytes(out[1])))
}

/// Nothing where the pair is accepted, else the refusal's number.
fn accept(fluid: u32, t: f64, liquid: f64, vapour: f64) -> Result<(), u32> {
    // The call takes numbers alone.
    match unsafe { verriblom_accept(fluid, t, liquid, vapour) } {
        0 => Ok(()),
        code => Err(code),
    }
}

fn print_verdict(what: &str, verdict: Result<(), u32>) {
    match verdict {
        Ok(()) => println!("  {what}: accepted"),
        Err(code) => println!("  {what}: refused, {code}"),
    }
}

fn main() {
    for (name, fluid, t) in QUESTIONS {
        match saturation(fluid, t) {
            Err(code) => println!("{name} {t} K: refused, {code}"),
            Ok((liquid, vapour)) => {
                println!("{name} {t} K: liquid {liquid:.9}, vapour {vapour:.9} mol/dm3");
                // the pair itself, and two that are none: its densities exchanged, and its vapour one part in a million off
                print_verdict("as it is", accept(fluid, t, liquid, vapour));
                print_verdict("exchanged", accept(fluid, t, vapour, liquid));
                print_verdict("vapour off", accept(fluid, t, liquid, vapour * 1.000001));
            }
        }
    }
}
