//! Saturation pairs in Rust, in the package's form: the two estimates, the states of a pair at a kept temperature, the judge's
//! tests and the rounds. I0 is worked anew for each state, as in the package.
use super::{ideal_0, keep, over, state_pressure, sums_at, Kept, State};
use crate::fluids::{fluid_numbered, Fluid, Term};
use crate::{finite_or_nan, rust_exp as exp, rust_ln as ln};

const MOST_ROUNDS: usize = 40;

#[derive(Clone, Copy)]
struct Pair {
    liquid: f64,
    vapour: f64,
}

// ---- the estimates

/// ln θ is handed over, so that a curve works it once; at the critical temperature it is a NaN, and the power 0.
fn term_value(term: Term, theta: f64, ln_theta: f64) -> f64 {
    match term {
        Term::Alone(n) => n * theta,
        Term::Raised(n, t) => n * if theta == 0.0 { 0.0 } else { exp(t * ln_theta) },
    }
}

fn continued(first: f64, terms: &[Term], theta: f64, ln_theta: f64) -> f64 {
    let mut sum = first;
    for &term in terms {
        sum += term_value(term, theta, ln_theta);
    }
    sum
}

fn answered(x: f64) -> Result<f64, u32> {
    if x.is_finite() {
        Ok(x)
    } else {
        Err(12)
    }
}

fn liquid_estimate(fluid: &Fluid, t: f64) -> Result<f64, u32> {
    let theta = 1.0 - t / fluid.critical_t;
    answered(fluid.critical_rho * continued(1.0, fluid.liquid, theta, ln(theta)))
}

fn vapour_estimate(fluid: &Fluid, t: f64) -> Result<f64, u32> {
    let theta = 1.0 - t / fluid.critical_t;
    let ln_theta = ln(theta);
    let (&first, rest) = fluid.vapour.split_first().ok_or(12u32)?;
    let series = continued(term_value(first, theta, ln_theta), rest, theta, ln_theta);
    answered(fluid.critical_rho * exp(series))
}

// ---- two states

/// The pressure, 1 + I0 + S0 + S1, and Q.
struct Phase {
    p: f64,
    g: f64,
    q: f64,
}

struct Compared {
    liquid: Phase,
    vapour: Phase,
    dp: f64,
    dg: f64,
}

fn phase_at(kept: &Kept, rho: f64) -> Phase {
    let delta = rho / kept.fluid.critical_rho;
    let sums = sums_at(kept, delta);
    let s = State { fluid: kept.fluid, t: kept.t, rho, tau: kept.tau, ln_tau: kept.ln_tau, delta, sums };
    Phase {
        p: state_pressure(&s),
        g: finite_or_nan(1.0 + ideal_0(&s) + sums.s0 + sums.s1),
        q: finite_or_nan(1.0 + 2.0 * sums.s1 + sums.s2),
    }
}

fn compare(kept: &Kept, pair: Pair) -> Compared {
    let (liquid, vapour) = (phase_at(kept, pair.liquid), phase_at(kept, pair.vapour));
    let (dp, dg) = (finite_or_nan(liquid.p - vapour.p), finite_or_nan(liquid.g - vapour.g));
    Compared { liquid, vapour, dp, dg }
}

// ---- the judge

fn tested(fluid: &Fluid, t: f64, pair: Pair) -> Result<(), u32> {
    if !t.is_finite() || !pair.liquid.is_finite() || !pair.vapour.is_finite() {
        Err(2)
    } else if !fluid.t.has(t) {
        Err(3)
    } else if !fluid.rho.has(pair.liquid) || !fluid.rho.has(pair.vapour) {
        Err(4)
    } else {
        Ok(())
    }
}

fn ordered(fluid: &Fluid, t: f64, pair: Pair) -> bool {
    t < fluid.critical_t
        && 0.0 < pair.vapour
        && pair.vapour < fluid.critical_rho
        && fluid.critical_rho < pair.liquid
}

fn all_finite(c: &Compared) -> bool {
    let finite = |phase: &Phase| phase.p.is_finite() && phase.g.is_finite() && phase.q.is_finite();
    finite(&c.liquid) && finite(&c.vapour) && c.dp.is_finite() && c.dg.is_finite()
}

fn meets(c: &Compared) -> bool {
    0.0 < c.liquid.q && 0.0 < c.vapour.q && (-0.01..=0.01).contains(&c.dp) && (-1e-9..=1e-9).contains(&c.dg)
}

fn accepted(number: u32, t: f64, pair: Pair) -> Result<(), u32> {
    let fluid = fluid_numbered(number).ok_or(17u32)?;
    tested(fluid, t, pair)?;
    if !ordered(fluid, t, pair) {
        return Err(19);
    }
    let c = compare(&keep(fluid, t), pair);
    if !all_finite(&c) {
        return Err(12);
    }
    meets(&c).then_some(()).ok_or(19)
}

#[no_mangle]
pub extern "C" fn rust_accept(number: u32, t: f64, liquid: f64, vapour: f64) -> u32 {
    accepted(number, t, Pair { liquid, vapour }).err().unwrap_or(0)
}

// ---- the proposer

fn next_pair(kept: &Kept, Pair { liquid: l, vapour: v }: Pair, c: &Compared) -> Pair {
    let d = over(c.dp, (1000.0 * kept.fluid.r) * kept.t);
    let y = over(d / l - c.dg, 1.0 / l - 1.0 / v);
    let x = y - d;
    Pair { liquid: finite_or_nan(l + x / c.liquid.q), vapour: finite_or_nan(v + y / c.vapour.q) }
}

/// The first pair that is accepted, of this one and those of the rounds; each state is worked once, for the judgement and for
/// the round.
fn first_accepted(fluid: &'static Fluid, t: f64, first: Pair) -> Result<Pair, u32> {
    let kept = keep(fluid, t);
    let mut pair = first;
    for _ in 0..=MOST_ROUNDS {
        tested(fluid, t, pair).map_err(|_| 20u32)?;
        let c = compare(&kept, pair);
        if !all_finite(&c) {
            return Err(20);
        }
        if ordered(fluid, t, pair) && meets(&c) {
            return Ok(pair);
        }
        pair = next_pair(&kept, pair, &c);
    }
    Err(20)
}

fn proposed(number: u32, t: f64, room: usize) -> Result<Pair, u32> {
    let fluid = fluid_numbered(number).ok_or(17u32)?;
    if !t.is_finite() {
        return Err(2);
    }
    if !fluid.t.has(t) {
        return Err(3);
    }
    if room < 16 {
        return Err(7);
    }
    if t > fluid.critical_t {
        return Err(13);
    }
    let liquid = liquid_estimate(fluid, t)?;
    let vapour = vapour_estimate(fluid, t)?;
    first_accepted(fluid, t, Pair { liquid, vapour })
}

/// The code; and, where it is 0, the bits of both densities in the output.
fn put_pair(number: u32, t: f64, out: &mut [u8]) -> u32 {
    match (proposed(number, t, out.len()), out.first_chunk_mut::<16>()) {
        (Ok(pair), Some(first)) => {
            first[..8].copy_from_slice(&pair.liquid.to_le_bytes());
            first[8..].copy_from_slice(&pair.vapour.to_le_bytes());
            0
        }
        (Ok(_), None) => 7,
        (Err(code), _) => code,
    }
}

/// # Safety
///
/// `out` points to that many bytes.
#[no_mangle]
pub unsafe extern "C" fn rust_saturation(number: u32, t: f64, out: *mut u8, out_len: usize) -> u32 {
    put_pair(number, t, core::slice::from_raw_parts_mut(out, out_len))
}
