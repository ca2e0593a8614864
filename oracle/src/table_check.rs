//! `tables`: every table value against what the untouched Rust computes in its place.

use crate::samples::power_of_two;
use crate::tables;
use crate::untouched::ps_decorr::PsDecorr;
use crate::untouched::ps_hybrid::HybridConfig;
use crate::untouched::ps_stereo::{ICC_RHO, IID_DB_COARSE, IID_DB_FINE, mix_ra, mix_rb};
use crate::untouched::sbr_qmf::Complex;
use core::f64::consts::{FRAC_PI_4, PI};

/// How many values of a table were compared, and the worst of them.
struct Check {
    name: &'static str,
    values: usize,
    worst: f64,
    place: String,
}

impl Check {
    fn new(name: &'static str) -> Self {
        Check {
            name,
            values: 0,
            worst: 0.0,
            place: String::new(),
        }
    }

    fn value(&mut self, table: f64, rust: f64, place: impl Fn() -> String) {
        self.values += 1;
        let apart = (table - rust).abs();
        if !(apart <= self.worst) {
            self.worst = apart;
            self.place = place();
        }
    }

    fn print(&self) -> bool {
        let Check {
            name,
            values,
            worst,
            place,
        } = self;
        if *worst == 0.0 {
            println!("{name}: {values} values, all equal");
            return true;
        }
        let within = *worst <= power_of_two(-40);
        let verdict = if within { "" } else { ": BEYOND 2^-40" };
        let power = worst.log2();
        println!(
            "{name}: {values} values, worst distance {worst:e} (2^{power:.1}) at {place}{verdict}"
        );
        within
    }
}

pub fn check() -> bool {
    let checks = [
        mixing(),
        phase(),
        rotation("ROTATION_20", HybridConfig::Bands1020, 20),
        rotation("ROTATION_34", HybridConfig::Bands34, 34),
        roots("ROOT_8", 4),
        roots("ROOT_16", 8),
        roots("ROOT_24", 12),
        type_b(),
    ];
    // Every table is printed, also after one that is beyond.
    checks
        .iter()
        .fold(true, |within, check| check.print() && within)
}

fn mixing() -> Check {
    let mut check = Check::new("MIXING");
    for (rb, fine) in [(false, false), (false, true), (true, false), (true, true)] {
        let (grid, bound): (&[f64], i32) = if fine {
            (&IID_DB_FINE, 15)
        } else {
            (&IID_DB_COARSE, 7)
        };
        for (iid, decibel) in (-bound..=bound).zip(grid) {
            for (icc, &rho) in ICC_RHO.iter().enumerate() {
                let c = 10f64.powf(decibel / 20.0);
                let rust = if rb { mix_rb(c, rho) } else { mix_ra(c, rho) };
                let table = tables::mixing(rb, fine, iid, icc as i32);
                let place = || format!("rb {rb} fine {fine} iid {iid} icc {icc}");
                check.value(table.0, rust.0, place);
                check.value(table.1, rust.1, place);
                check.value(table.2, rust.2, place);
                check.value(table.3, rust.3, place);
            }
        }
    }
    check
}

/// The Rust's smoothed phase: the sum of three vectors, its angle, and that angle's direction.
fn phase() -> Check {
    let mut check = Check::new("PHASE");
    for number in 0..512 {
        let indices = [number / 64, number / 8 % 8, number % 8].map(f64::from);
        let mut sum = Complex::default();
        for (weight, index) in [0.25, 0.5, 1.0].into_iter().zip(indices) {
            let (sine, cosine) = (index * FRAC_PI_4).sin_cos();
            sum += Complex::new(cosine * weight, sine * weight);
        }
        let (sine, cosine) = sum.im.atan2(sum.re).sin_cos();
        let table = tables::direction(indices[0], indices[1], indices[2]);
        let place = || format!("{indices:?}");
        check.value(table.0, cosine, place);
        check.value(table.1, sine, place);
    }
    check
}

/// These the Rust keeps in its de-correlator, so it is asked itself.
fn rotation(name: &'static str, config: HybridConfig, bands: usize) -> Check {
    let mut check = Check::new(name);
    let bank = PsDecorr::new(config);
    for (k, (phi, links)) in bank.phi_fract.iter().zip(&bank.q_fract).enumerate() {
        for (link, rust) in [*phi, links[0], links[1], links[2]].iter().enumerate() {
            let (sine, cosine) = tables::rotation(bands, k, link);
            let place = || format!("channel {k} link {link}");
            check.value(cosine, rust.re, place);
            check.value(sine, rust.im, place);
        }
    }
    check
}

/// Every root, then each again at every tap of a filter that meets it.
fn roots(name: &'static str, filters: usize) -> Check {
    let mut check = Check::new(name);
    for (number, root) in tables::roots(filters).chunks(2).enumerate() {
        let (sine, cosine) = (2.0 * PI / (2 * filters) as f64 * number as f64).sin_cos();
        let place = || format!("root {number}");
        check.value(tables::unit(root[0]), cosine, place);
        check.value(tables::unit(root[1]), sine, place);
    }
    for q in 0..filters {
        for m in 0..13 {
            let angle = 2.0 * PI / filters as f64 * (q as f64 + 0.5) * (m as f64 - 6.0);
            tap(&mut check, true, filters, q, m, angle);
        }
    }
    check
}

fn type_b() -> Check {
    let mut check = Check::new("type B cosines");
    for q in 0..2 {
        for m in 0..13 {
            let angle = 2.0 * PI * q as f64 / 2.0 * (m as f64 - 6.0);
            tap(&mut check, false, 2, q, m, angle);
        }
    }
    check
}

fn tap(check: &mut Check, type_a: bool, filters: usize, q: usize, m: usize, angle: f64) {
    let (sine, cosine) = tables::modulation(type_a, filters, q, m);
    let place = || format!("filter {q} tap {m}");
    let (rust_sine, rust_cosine) = angle.sin_cos();
    check.value(cosine, rust_cosine, place);
    if type_a {
        check.value(sine, rust_sine, place);
    }
}
