//! `gamma`: procedure Rb's γ (§8.6.4.6.2.2) as document 000 reads it and with √μ for μ, over every IID level and coherence.

use crate::untouched::ps_stereo::{ICC_RHO, IID_DB_COARSE, IID_DB_FINE, mix_rb};
use std::f64::consts::{FRAC_PI_2, FRAC_PI_4, SQRT_2};

/// h11, h12, h21, h22.
type Coefficients = [f64; 4];

/// Document 000's lines, but for what stands in place of μ in γ.
fn coefficients(c: f64, rho: f64, reading: fn(f64) -> f64) -> Coefficients {
    let mut alpha = if (c - 1.0).abs() < 1e-12 {
        FRAC_PI_4
    } else {
        0.5 * (2.0 * c * rho / (c * c - 1.0)).atan()
    };
    alpha -= (alpha / FRAC_PI_2).floor() * FRAC_PI_2;
    let mu = reading(1.0 + (4.0 * rho * rho - 4.0) / (c + 1.0 / c).powi(2));
    let gamma = ((1.0 - mu) / (1.0 + mu)).max(0.0).sqrt().atan();
    [
        SQRT_2 * alpha.cos() * gamma.cos(),
        SQRT_2 * alpha.sin() * gamma.cos(),
        -SQRT_2 * alpha.sin() * gamma.sin(),
        SQRT_2 * alpha.cos() * gamma.sin(),
    ]
}

/// A cue, and the coefficients of both readings.
struct Case {
    level: f64,
    rho: f64,
    plain: Coefficients,
    root: Coefficients,
}

fn cases() -> Vec<Case> {
    let mut levels = [&IID_DB_COARSE[..], &IID_DB_FINE[..]].concat();
    levels.sort_by(f64::total_cmp);
    levels.dedup();
    let pairs = levels
        .iter()
        .flat_map(|&level| ICC_RHO.map(|rho| (level, rho)));
    let case = |(level, asked): (f64, f64)| {
        let c = 10f64.powf(level / 20.0);
        // Procedure Rb has no coherence below this.
        let rho = asked.max(0.05);
        let plain = coefficients(c, rho, |mu| mu);
        let (h11, h12, h21, h22) = mix_rb(c, asked);
        assert_eq!(plain, [h11, h12, h21, h22], "document 000's own lines");
        let root = coefficients(c, rho, f64::sqrt);
        Case {
            level,
            rho,
            plain,
            root,
        }
    };
    pairs.map(case).collect()
}

/// The powers of left and right for a mono signal and a de-correlated one, each of power 1.
fn powers(h: &Coefficients) -> [f64; 2] {
    [h[0] * h[0] + h[2] * h[2], h[1] * h[1] + h[3] * h[3]]
}

fn decibels(ratio: f64) -> f64 {
    10.0 * ratio.log10()
}

fn level_difference(h: &Coefficients) -> f64 {
    let [left, right] = powers(h);
    decibels(left / right)
}

fn coherence(h: &Coefficients) -> f64 {
    let [left, right] = powers(h);
    (h[0] * h[1] + h[2] * h[3]) / (left * right).sqrt()
}

/// The cue at which a measure is furthest from 0.
fn print_worst(cases: &[Case], name: &str, measure: impl Fn(&Case) -> f64) {
    let further = |a: &&Case, b: &&Case| measure(a).abs().total_cmp(&measure(b).abs());
    let worst = cases.iter().max_by(further).expect("a case");
    let (level, rho) = (worst.level, worst.rho);
    println!(
        "{name}: {:+.3e} at {level} dB, coherence {rho}",
        measure(worst)
    );
}

/// What √μ for μ changes in the coefficients and in the sound.
fn print_changes(cases: &[Case]) {
    for (place, name) in ["h11", "h12", "h21", "h22"].iter().enumerate() {
        let change = |case: &Case| case.root[place] - case.plain[place];
        print_worst(cases, &format!("change of {name}"), change);
    }
    let change = |case: &Case, place: usize| (case.root[place] - case.plain[place]).abs();
    let left = |case: &Case| change(case, 0) + change(case, 2);
    print_worst(
        cases,
        "change of a sample of left, at most, for samples of 1",
        left,
    );
    for (place, name) in ["left", "right"].iter().enumerate() {
        let power = |h: &Coefficients| powers(h)[place];
        let change = |case: &Case| decibels(power(&case.root) / power(&case.plain));
        print_worst(cases, &format!("change of {name}, dB"), change);
    }
    let moved = |case: &Case| powers(&case.root)[0] - powers(&case.plain)[0];
    print_worst(cases, "power that goes from right to left, of 2", moved);
}

/// What each reading gives against the cue asked for; left and right have the power 2 together.
fn print_cues(cases: &[Case], name: &str, reading: impl Fn(&Case) -> Coefficients) {
    let whole = |case: &Case| powers(&reading(case)).iter().sum::<f64>() - 2.0;
    print_worst(cases, &format!("{name}: left + right - 2"), whole);
    let level = |case: &Case| level_difference(&reading(case)) - case.level;
    print_worst(cases, &format!("{name}: level difference - cue, dB"), level);
    let apart = |case: &Case| coherence(&reading(case)) - case.rho;
    print_worst(cases, &format!("{name}: coherence - cue"), apart);
}

/// Level difference and coherence as the Rust has them, for cues of 0, 7 and 18 dB.
fn print_table(cases: &[Case]) {
    println!("the Rust, for a cue of 0, 7, 18 dB and a coherence: level difference, coherence");
    for rho in ICC_RHO.iter().take(6).map(|rho| rho.max(0.05)) {
        let row = [0.0, 7.0, 18.0].map(|wanted| {
            let met = |case: &&Case| case.level == wanted && case.rho == rho;
            let h = &cases.iter().find(met).expect("a case").plain;
            format!("{:.2} dB, {:.3}", level_difference(h).abs(), coherence(h))
        });
        println!("  {rho}: {}", row.join("; "));
    }
}

pub fn measure() -> bool {
    let cases = cases();
    println!(
        "cues: {}; a change is the value with √μ less the Rust's",
        cases.len()
    );
    print_changes(&cases);
    print_cues(&cases, "the Rust", |case| case.plain);
    print_cues(&cases, "with √μ", |case| case.root);
    print_table(&cases);
    true
}
