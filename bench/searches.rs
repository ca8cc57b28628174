//! Density from pressure in Rust in the package's steps, over c cells: the plain search, the preparation of two lists, and the
//! quick search. Side 0 is from below, any other from above; a refusal is a NaN.
use crate::equation::{keep, pressure_at, Kept};
use crate::fluids::{fluid_numbered, Fluid};

const HALVINGS: u32 = 23;

fn step_density(k: usize) -> f64 {
    k as f64 * 9.313225746154785e-10
}

fn step_pressure(kept: &Kept, k: usize) -> f64 {
    pressure_at(kept, step_density(k))
}

fn end_pressure(kept: &Kept, j: usize) -> f64 {
    step_pressure(kept, j << HALVINGS)
}

fn permitted_cells(fluid: &Fluid, c: usize) -> bool {
    1 <= c && c <= fluid.top
}

/// The fluid of a number where there is one, and T, P and c are in its ranges.
fn permitted(number: u32, t: f64, p: f64, c: usize) -> Option<&'static Fluid> {
    fluid_numbered(number).filter(|fluid| fluid.t.has(t) && fluid.p.has(p) && permitted_cells(fluid, c))
}

fn in_cell(kept: &Kept, p: f64, cell: usize) -> f64 {
    let (mut lower, mut upper) = (cell << HALVINGS, (cell + 1) << HALVINGS);
    for _ in 0..HALVINGS {
        let middle = (lower + upper) / 2;
        let pressure = step_pressure(kept, middle);
        if pressure.is_nan() {
            return f64::NAN;
        }
        if pressure <= p {
            lower = middle;
        } else {
            upper = middle;
        }
    }
    if upper - lower == 1 {
        step_density(lower)
    } else {
        f64::NAN
    }
}

fn plain_from_below(kept: &Kept, p: f64, c: usize) -> f64 {
    for j in 1..=c {
        let pressure = end_pressure(kept, j);
        if pressure.is_nan() {
            return f64::NAN;
        }
        if pressure > p {
            return in_cell(kept, p, j - 1);
        }
    }
    f64::NAN
}

fn plain_from_above(kept: &Kept, p: f64, c: usize) -> f64 {
    let top = end_pressure(kept, c);
    if top.is_nan() || top <= p {
        return f64::NAN;
    }
    for j in (0..c).rev() {
        let pressure = end_pressure(kept, j);
        if pressure.is_nan() {
            return f64::NAN;
        }
        if pressure <= p {
            return in_cell(kept, p, j);
        }
    }
    f64::NAN
}

#[no_mangle]
pub extern "C" fn rust_plain(number: u32, t: f64, p: f64, c: usize, side: u32) -> f64 {
    let Some(fluid) = permitted(number, t, p, c) else {
        return f64::NAN;
    };
    let kept = keep(fluid, t);
    if side == 0 {
        plain_from_below(&kept, p, c)
    } else {
        plain_from_above(&kept, p, c)
    }
}

/// The pressures at all ends into both lists; false where one of them is not finite.
fn filled(kept: &Kept, c: usize, greatest: &mut [f64], least: &mut [f64]) -> bool {
    for (j, (g, l)) in greatest.iter_mut().zip(least).enumerate().take(c + 1) {
        let pressure = end_pressure(kept, j);
        if pressure.is_nan() {
            return false;
        }
        *g = pressure;
        *l = pressure;
    }
    true
}

fn prepared(number: u32, t: f64, c: usize, greatest: &mut [f64], least: &mut [f64]) -> u32 {
    let Some(fluid) = fluid_numbered(number) else {
        return 17;
    };
    if !t.is_finite() {
        return 2;
    }
    if !fluid.t.has(t) {
        return 3;
    }
    if !permitted_cells(fluid, c) {
        return 6;
    }
    if greatest.len() <= c || least.len() <= c {
        return 7;
    }
    if !filled(&keep(fluid, t), c, greatest, least) {
        greatest.iter_mut().take(c + 1).for_each(|g| *g = 0.0);
        least.iter_mut().take(c + 1).for_each(|l| *l = 0.0);
        return 12;
    }
    let mut so_far = f64::NEG_INFINITY;
    for g in greatest.iter_mut().take(c + 1) {
        so_far = if so_far < *g { *g } else { so_far };
        *g = so_far;
    }
    let mut from_here = f64::INFINITY;
    for l in least.iter_mut().take(c + 1).rev() {
        from_here = if from_here < *l { from_here } else { *l };
        *l = from_here;
    }
    0
}

/// # Safety
///
/// The lists point to as many numbers as they have places, and do not overlap.
#[no_mangle]
pub unsafe extern "C" fn rust_prepare(
    number: u32,
    t: f64,
    c: usize,
    g: *mut f64,
    places_g: usize,
    l: *mut f64,
    places_l: usize,
) -> u32 {
    let greatest = core::slice::from_raw_parts_mut(g, places_g);
    prepared(number, t, c, greatest, core::slice::from_raw_parts_mut(l, places_l))
}

fn is_above(list: &[f64], place: usize, p: f64) -> bool {
    list.get(place).is_some_and(|&x| x > p)
}

fn halved_places(list: &[f64], p: f64, c: usize) -> usize {
    let (mut a, mut b) = (0, c);
    while b - a > 1 {
        let middle = (a + b) / 2;
        if is_above(list, middle, p) {
            b = middle;
        } else {
            a = middle;
        }
    }
    a
}

fn quick(number: u32, t: f64, p: f64, c: usize, side: u32, greatest: &[f64], least: &[f64]) -> f64 {
    let list = if side == 0 { greatest } else { least };
    let Some(fluid) = permitted(number, t, p, c) else {
        return f64::NAN;
    };
    if greatest.len() <= c || least.len() <= c || !is_above(list, c, p) {
        return f64::NAN;
    }
    let kept = keep(fluid, t);
    let a = halved_places(list, p, c);
    let (low, high) = (end_pressure(&kept, a), end_pressure(&kept, a + 1));
    if low <= p && p < high {
        in_cell(&kept, p, a)
    } else {
        f64::NAN
    }
}

/// # Safety
///
/// The lists point to as many numbers as they have places.
#[no_mangle]
pub unsafe extern "C" fn rust_quick(
    number: u32,
    t: f64,
    p: f64,
    c: usize,
    side: u32,
    g: *const f64,
    places_g: usize,
    l: *const f64,
    places_l: usize,
) -> f64 {
    let greatest = core::slice::from_raw_parts(g, places_g);
    quick(number, t, p, c, side, greatest, core::slice::from_raw_parts(l, places_l))
}
