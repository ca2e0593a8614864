//! The project's whole-number tables as the tabled variant looks them up.

use crate::table_data::*;
use std::sync::atomic::{AtomicBool, Ordering};

/// Which sets and which pairs were looked up: the generator has to reach them all.
static MIXING_MET: [AtomicBool; 736] = [const { AtomicBool::new(false) }; 736];
static PHASE_MET: [AtomicBool; 512] = [const { AtomicBool::new(false) }; 512];

fn count(met: &[AtomicBool]) -> usize {
    met.iter()
        .filter(|place| place.load(Ordering::Relaxed))
        .count()
}

pub fn print_met() {
    println!("mixing sets met: {} of 736", count(&MIXING_MET));
    println!("phase triples met: {} of 512", count(&PHASE_MET));
}

/// A whole number n of a table means n / 2^52.
pub fn unit(whole: i64) -> f64 {
    (whole as f64) / 4503599627370496.0
}

fn pair(table: &[i64], place: usize) -> (f64, f64) {
    (unit(table[2 * place]), unit(table[2 * place + 1]))
}

/// h11, h12, h21, h22 of a procedure, an IID index on its grid and an ICC index.
pub fn mixing(rb: bool, fine: bool, iid: i32, icc: i32) -> (f64, f64, f64, f64) {
    let level = if fine { 15 + 15 + iid } else { 7 + iid };
    let place = (usize::from(rb) * 46 + level as usize) * 8 + icc as usize;
    MIXING_MET[place].store(true, Ordering::Relaxed);
    let number = |c: usize| unit(MIXING[4 * place + c]);
    (number(0), number(1), number(2), number(3))
}

/// Cosine and sine of the smoothed phase; the indices come as exact floats.
pub fn direction(oldest: f64, previous: f64, current: f64) -> (f64, f64) {
    let place = (oldest as usize * 8 + previous as usize) * 8 + current as usize;
    PHASE_MET[place].store(true, Ordering::Relaxed);
    pair(&PHASE, place)
}

/// Sine, then cosine, of all-pass channel k: link 0 is phi_fract, 1..3 are Q(k, 0..2).
pub fn rotation(bands: usize, k: usize, link: usize) -> (f64, f64) {
    let table: &[i64] = if bands == 20 {
        &ROTATION_20
    } else {
        &ROTATION_34
    };
    let (cosine, sine) = pair(table, 4 * k + link);
    (sine, cosine)
}

/// Sine, then cosine, of tap m of filter q of a band split by `filters`.
pub fn modulation(type_a: bool, filters: usize, q: usize, m: usize) -> (f64, f64) {
    let distance = m as i64 - 6;
    if !type_a {
        let odd = (q as i64 * distance).rem_euclid(2) == 1;
        return (0.0, if odd { -1.0 } else { 1.0 });
    }
    let order = 2 * filters as i64;
    let place = ((2 * q as i64 + 1) * distance).rem_euclid(order) as usize;
    let (cosine, sine) = pair(roots(filters), place);
    (sine, cosine)
}

/// The roots of order 2Q for a band split into Q.
pub fn roots(filters: usize) -> &'static [i64] {
    match filters {
        4 => &ROOT_8,
        8 => &ROOT_16,
        12 => &ROOT_24,
        other => panic!("no roots for a band split by {other}"),
    }
}
