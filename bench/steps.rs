//! The steps of exp, ln and root in Rust, one rounding per operation, in the order in which they are specified.
#![no_std]

mod equation;
mod fluids;
mod searches;

fn finite_or_nan(x: f64) -> f64 {
    if x.is_finite() {
        x
    } else {
        f64::NAN
    }
}

#[no_mangle]
pub extern "C" fn rust_exp(x: f64) -> f64 {
    if !(-700.0..=700.0).contains(&x) {
        return f64::NAN;
    }
    let y = x * 0.0009765625;
    let mut h = 1.0;
    for n in (1..17).rev() {
        h = 1.0 + (y * h) / f64::from(n);
    }
    for _ in 0..10 {
        h = h * h;
    }
    finite_or_nan(h)
}

/// exp of each of seven numbers: each step for all seven before the next.
fn seven_exps(x: [f64; 7]) -> [f64; 7] {
    let y = x.map(|x| if (-700.0..=700.0).contains(&x) { x * 0.0009765625 } else { f64::NAN });
    let mut h = [1.0; 7];
    for n in (1..17).rev() {
        for (h, y) in h.iter_mut().zip(&y) {
            *h = 1.0 + (y * *h) / f64::from(n);
        }
    }
    for _ in 0..10 {
        h = h.map(|h| h * h);
    }
    h.map(finite_or_nan)
}

/// x = m·2ᵉ with 0.75 ≤ m < 1.5.
struct Parts {
    m: f64,
    e: f64,
}

/// Read off the bits: below 1.5 the digits stand under the exponent of 1, from 1.5 on under that of 1/2.
fn split(x: f64) -> Parts {
    let bits = x.to_bits();
    let digits = bits & ((1 << 52) - 1);
    let field = bits >> 52 & 2047;
    let under = if digits < 1 << 51 { 1023 } else { 1022 };
    Parts {
        m: f64::from_bits(under << 52 | digits),
        e: (field as i64 - under as i64) as f64,
    }
}

#[no_mangle]
pub extern "C" fn rust_ln(x: f64) -> f64 {
    const LOWEST: f64 = 1.0 / HIGHEST;
    const HIGHEST: f64 = (1u64 << 60) as f64;
    if !(LOWEST..=HIGHEST).contains(&x) {
        return f64::NAN;
    }
    let Parts { m, e } = split(x);
    let z = (m - 1.0) / (m + 1.0);
    let s = z * z;
    let mut h = 1.0 / 21.0;
    for n in (1..=19).rev().step_by(2) {
        h = 1.0 / f64::from(n) + s * h;
    }
    finite_or_nan((2.0 * z) * h + e * 0.6931471805599453)
}

#[no_mangle]
pub extern "C" fn rust_root(x: f64) -> f64 {
    if !(1.0..=1e8).contains(&x) {
        return f64::NAN;
    }
    let mut y = 256.0;
    for _ in 0..16 {
        y = (y + x / y) / 2.0;
    }
    finite_or_nan(y)
}
