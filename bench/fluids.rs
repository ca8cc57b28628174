//! The fluids as data; a candidate is told the number of one when it is called, as the package is. digits.rs has the digits, and
//! bench/digits writes it. Units: K, mol/dm³, Pa, J/(mol K), kg/mol.
// The estimates are for saturation pairs alone.
#![cfg_attr(not(pairs), allow(dead_code))]

use Row::{Bell, Damped, Plain};
use Term::{Alone, Raised};

#[derive(Clone, Copy)]
pub enum Row {
    Plain(Power),
    Damped(Power, i32),
    Bell(Power, Shape),
}

/// N, t and d, which every row has.
#[derive(Clone, Copy)]
pub struct Power(pub f64, pub f64, pub i32);

#[derive(Clone, Copy)]
pub struct Shape {
    pub eta: f64,
    pub beta: f64,
    pub gamma: f64,
    pub epsilon: f64,
}

const fn shape(eta: f64, beta: f64, gamma: f64, epsilon: f64) -> Shape {
    Shape { eta, beta, gamma, epsilon }
}

/// Of a saturation estimate: N·θ, or N·θᵗ.
#[derive(Clone, Copy)]
pub enum Term {
    Alone(f64),
    Raised(f64, f64),
}

pub struct Range {
    least: f64,
    greatest: f64,
}

impl Range {
    /// A NaN is in no range.
    pub fn has(&self, x: f64) -> bool {
        self.least <= x && x <= self.greatest
    }
}

pub struct Fluid {
    pub critical_t: f64,
    pub critical_rho: f64,
    pub r: f64,
    pub m: f64,
    pub a1: f64,
    pub a2: f64,
    pub c0: f64,
    pub t: Range,
    pub rho: Range,
    pub p: Range,
    pub top: usize,
    /// v and u
    pub pairs: [(f64, f64); 3],
    pub rows: [Row; 14],
    pub liquid: &'static [Term],
    pub vapour: &'static [Term],
}

// FLUIDS, in the order of their numbers; DIGITS names the folder that has it.
include!(concat!(env!("DIGITS"), "/digits.rs"));

pub fn fluid_numbered(number: u32) -> Option<&'static Fluid> {
    FLUIDS.get(number as usize)
}
