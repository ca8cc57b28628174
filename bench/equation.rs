//! The equation in Rust in the package's form: what the temperature alone decides is kept, the powers and the
//! exponentials are worked seven at a time, rows 6 and 7 are damped as row 9 is, and one loop sums.
// Only where they are timed: one more caller of the ideal part, and the compiler would no longer inline it in the entropy.
#[cfg(pairs)]
#[path = "pairs.rs"]
mod pairs;
#[path = "records.rs"]
mod records;

use crate::fluids::{fluid_numbered, Fluid, Power, Row};
use crate::{finite_or_nan, seven_exps, rust_exp as exp, rust_ln as ln, rust_root as root};

#[derive(Clone, Copy, Default)]
struct Sums {
    s0: f64,
    s1: f64,
    s2: f64,
    t1: f64,
    t2: f64,
    st: f64,
}

pub(crate) struct Kept {
    fluid: &'static Fluid,
    t: f64,
    tau: f64,
    ln_tau: f64,
    powers: [f64; 14],
    bells: [f64; 14],
}

struct State {
    fluid: &'static Fluid,
    t: f64,
    rho: f64,
    tau: f64,
    ln_tau: f64,
    delta: f64,
    sums: Sums,
}

/// What a row gives: A, q, r, f, g.
struct Given(f64, f64, f64, f64, f64);

fn exponent(row: &Row) -> f64 {
    match *row {
        Row::Plain(p) | Row::Damped(p, _) | Row::Bell(p, _) => p.1,
    }
}

fn bell_part(row: &Row, tau: f64) -> f64 {
    match *row {
        Row::Bell(_, b) => b.beta * (tau - b.gamma) * (tau - b.gamma),
        _ => 0.0,
    }
}

/// Two halves of seven rows.
fn joined(first: [f64; 7], second: [f64; 7]) -> [f64; 14] {
    core::array::from_fn(|k| if k < 7 { first[k] } else { second[k - 7] })
}

pub(crate) fn keep(fluid: &'static Fluid, t: f64) -> Kept {
    let rows = &fluid.rows;
    let tau = fluid.critical_t / t;
    let ln_tau = ln(tau);
    let half = |from: usize| seven_exps(core::array::from_fn(|k| exponent(&rows[from + k]) * ln_tau));
    let powers = joined(half(0), half(7));
    let bells = core::array::from_fn(|k| bell_part(&rows[k], tau));
    Kept { fluid, t, tau, ln_tau, powers, bells }
}

fn whole_power(x: f64, n: i32) -> f64 {
    let mut p = 1.0;
    for _ in 0..n {
        p *= x;
    }
    p
}

/// Of a row in the second half, where none is plain.
fn x_exponent(row: &Row, delta: f64, bell: f64) -> f64 {
    match *row {
        Row::Plain(_) => 0.0,
        Row::Damped(_, l) => -whole_power(delta, l),
        Row::Bell(_, b) => -b.eta * (delta - b.epsilon) * (delta - b.epsilon) - bell,
    }
}

/// Of a row in the first half, where none is a bell; rows 8 and 9 are the first two of the second.
fn first_x(row: &Row, second: &[f64; 7]) -> f64 {
    match *row {
        Row::Damped(_, l) => second[if l == 1 { 0 } else { 1 }],
        _ => 1.0,
    }
}

fn row_of(row: &Row, delta: f64, tau: f64, power: f64, x: f64) -> Given {
    let a = |Power(n, _, d): Power| n * whole_power(delta, d) * power * x;
    match *row {
        Row::Plain(p @ Power(_, t, d)) => {
            let q = f64::from(d);
            Given(a(p), q, t, q * q - q, t * t - t)
        }
        Row::Damped(p @ Power(_, t, d), l) => {
            let (delta_l, l) = (whole_power(delta, l), f64::from(l));
            let q = f64::from(d) - l * delta_l;
            Given(a(p), q, t, (q * q - q) - (l * l) * delta_l, t * t - t)
        }
        Row::Bell(p @ Power(_, t, d), b) => {
            let d = f64::from(d);
            let q = d - 2.0 * b.eta * delta * (delta - b.epsilon);
            let r = t - 2.0 * b.beta * tau * (tau - b.gamma);
            let f = (q * q - d) - 2.0 * b.eta * delta * delta;
            Given(a(p), q, r, f, (r * r - t) - 2.0 * b.beta * tau * tau)
        }
    }
}

fn added(s: Sums, Given(a, q, r, f, g): Given) -> Sums {
    Sums {
        s0: s.s0 + a,
        s1: s.s1 + a * q,
        s2: s.s2 + a * f,
        t1: s.t1 + a * r,
        t2: s.t2 + a * g,
        st: s.st + a * q * r,
    }
}

fn sums_at(kept: &Kept, delta: f64) -> Sums {
    let rows = &kept.fluid.rows;
    let second = seven_exps(core::array::from_fn(|k| x_exponent(&rows[7 + k], delta, kept.bells[7 + k])));
    let xs = joined(core::array::from_fn(|k| first_x(&rows[k], &second)), second);
    let mut s = Sums::default();
    for (k, row) in rows.iter().enumerate() {
        s = added(s, row_of(row, delta, kept.tau, kept.powers[k], xs[k]));
    }
    s
}

fn state_at(fluid: &'static Fluid, t: f64, rho: f64) -> State {
    let kept = keep(fluid, t);
    let delta = rho / fluid.critical_rho;
    let sums = sums_at(&kept, delta);
    State { fluid, t, rho, tau: kept.tau, ln_tau: kept.ln_tau, delta, sums }
}

// ---- the ideal part

/// A divisor that is not finite gives no value.
fn over(dividend: f64, divisor: f64) -> f64 {
    if divisor.is_finite() {
        dividend / divisor
    } else {
        f64::NAN
    }
}

/// Sums start at +0.
fn total(fluid: &Fluid, part: impl Fn(f64, f64) -> f64) -> f64 {
    let mut sum = 0.0;
    for &(v, u) in &fluid.pairs {
        sum += part(v, u);
    }
    sum
}

fn ideal_0(s: &State) -> f64 {
    let fluid = s.fluid;
    let sum = total(fluid, |v, u| v * ln(1.0 - exp(-(u / s.t))));
    fluid.a1 + fluid.a2 * s.tau + ln(s.delta) + (fluid.c0 - 1.0) * s.ln_tau + sum
}

fn ideal_1(s: &State) -> f64 {
    let part = |v: f64, b: f64| over(v * b, exp(b) - 1.0);
    s.fluid.a2 * s.tau + (s.fluid.c0 - 1.0) + total(s.fluid, |v, u| part(v, u / s.t))
}

fn ideal_2(s: &State) -> f64 {
    let part = |v: f64, b: f64, w: f64| over(v * b * b * w, (w - 1.0) * (w - 1.0));
    (s.fluid.c0 - 1.0) + total(s.fluid, |v, u| part(v, u / s.t, exp(u / s.t)))
}

// ---- properties

fn pressure_of(fluid: &Fluid, t: f64, rho: f64, s1: f64) -> f64 {
    finite_or_nan(((rho * 1000.0) * (fluid.r * t)) * (1.0 + s1))
}

fn state_pressure(s: &State) -> f64 {
    pressure_of(s.fluid, s.t, s.rho, s.sums.s1)
}

/// The pressure at a kept temperature.
pub(crate) fn pressure_at(kept: &Kept, rho: f64) -> f64 {
    pressure_of(kept.fluid, kept.t, rho, sums_at(kept, rho / kept.fluid.critical_rho).s1)
}

fn entropy_of(s: &State) -> f64 {
    finite_or_nan(s.fluid.r * (ideal_1(s) + s.sums.t1 - ideal_0(s) - s.sums.s0))
}

/// V, K and Q, where they are finite and the state is stable.
fn stability_of(s: &State) -> Option<(f64, f64, f64)> {
    let v = ideal_2(s) - s.sums.t2;
    let k = 1.0 + s.sums.s1 - s.sums.st;
    let q = 1.0 + 2.0 * s.sums.s1 + s.sums.s2;
    let finite = v.is_finite() && k.is_finite() && q.is_finite();
    (finite && q > 0.0 && v > 0.0).then_some((v, k, q))
}

fn isobaric_of(s: &State) -> f64 {
    stability_of(s).map_or(f64::NAN, |(v, k, q)| finite_or_nan(s.fluid.r * (v + k * k / q)))
}

fn sound_speed_of(s: &State) -> f64 {
    stability_of(s).map_or(f64::NAN, |(v, k, q)| root((s.fluid.r * s.t) / s.fluid.m * (q + k * k / v)))
}

/// The state of the fluid of a number where there is one, and T and the density are in its ranges; a density of minus zero is
/// worked as +0.
fn permitted(number: u32, t: f64, rho: f64) -> Option<State> {
    let fluid = fluid_numbered(number)?;
    let inside = fluid.t.has(t) && fluid.rho.has(rho);
    inside.then(|| state_at(fluid, t, if rho == 0.0 { 0.0 } else { rho }))
}

#[no_mangle]
pub extern "C" fn rust_pressure(number: u32, t: f64, rho: f64) -> f64 {
    permitted(number, t, rho).map_or(f64::NAN, |s| state_pressure(&s))
}

#[no_mangle]
pub extern "C" fn rust_entropy(number: u32, t: f64, rho: f64) -> f64 {
    permitted(number, t, rho).filter(|s| s.rho != 0.0).map_or(f64::NAN, |s| entropy_of(&s))
}

#[no_mangle]
pub extern "C" fn rust_isobaric(number: u32, t: f64, rho: f64) -> f64 {
    permitted(number, t, rho).map_or(f64::NAN, |s| isobaric_of(&s))
}

#[no_mangle]
pub extern "C" fn rust_sound_speed(number: u32, t: f64, rho: f64) -> f64 {
    permitted(number, t, rho).map_or(f64::NAN, |s| sound_speed_of(&s))
}

fn isotherm_total(fluid: &'static Fluid, t: f64, densities: &[f64]) -> f64 {
    let kept = keep(fluid, t);
    let mut total = 0.0;
    for &rho in densities {
        total += pressure_at(&kept, rho);
    }
    total
}

/// The sum of the pressures at T and each of the densities.
///
/// # Safety
///
/// `densities` points to `count` numbers.
#[no_mangle]
pub unsafe extern "C" fn rust_isotherm(number: u32, t: f64, densities: *const f64, count: usize) -> f64 {
    let densities = core::slice::from_raw_parts(densities, count);
    fluid_numbered(number).map_or(f64::NAN, |fluid| isotherm_total(fluid, t, densities))
}
