//! What the generated runs met, counted over accepted frames.

use crate::decoder::{Decoder, Frame};
use crate::judge::Judge;
use crate::line::{Cue, Row};
use std::collections::BTreeMap;

/// The facts of one run that a later frame is counted against.
#[derive(Default)]
pub struct Before {
    layout: Option<usize>,
    kept: [Option<usize>; 4],
}

#[derive(Default)]
pub struct Coverage {
    answers: BTreeMap<u8, usize>,
    facts: BTreeMap<String, usize>,
}

impl Coverage {
    pub fn answer(&mut self, answer: u8) {
        *self.answers.entry(answer).or_default() += 1;
    }

    fn fact(&mut self, name: impl Into<String>) {
        *self.facts.entry(name.into()).or_default() += 1;
    }

    /// Count one accepted frame.
    pub fn accepted<J: Judge>(&mut self, before: &mut Before, decoder: &Decoder<J>, frame: &Frame) {
        self.fact(edge_name(frame.edge));
        self.fact(format!("slots {:02}", decoder.slots));
        if frame.input.len() > (decoder.slots + 6) * 128 {
            self.fact("input has rows that are not read");
        }
        let Ok(Some(bytes)) = decoder.reader.bytes_of(&frame.line) else {
            self.fact("line empty");
            self.fact(format!("layout {}", before.layout.unwrap_or(20)));
            return;
        };
        let Ok(cue) = decoder.reader.cue(&bytes) else {
            return;
        };
        self.fact(format!("envelopes {}", cue.envelopes));
        self.fact(format!(
            "iid_mode {}{}",
            cue.iid_mode,
            absent(cue.iid_present)
        ));
        self.fact(format!(
            "icc_mode {}{}",
            cue.icc_mode,
            absent(cue.icc_present)
        ));
        self.layout(before, &cue);
        self.phase(&cue);
        self.borders(&cue, decoder.slots);
        self.rows(before, &cue);
    }

    fn layout(&mut self, before: &mut Before, cue: &Cue) {
        let wide = (cue.iid_present && cue.iid_mode % 3 == 2)
            || (cue.icc_present && cue.icc_mode % 3 == 2);
        let layout = if wide { 34 } else { 20 };
        let last = before.layout.unwrap_or(20);
        self.fact(format!("layout {layout}"));
        if last != layout {
            self.fact(format!("switch {last} to {layout}"));
        }
        before.layout = Some(layout);
    }

    fn phase(&mut self, cue: &Cue) {
        match (cue.phase, cue.iid_present) {
            (true, true) => self.fact("phase with IID"),
            (true, false) => self.fact("phase without IID"),
            (false, _) => self.fact("phase off"),
        }
    }

    fn borders(&mut self, cue: &Cue, slots: usize) {
        if cue.envelopes == 0 {
            return;
        }
        self.fact(if cue.variable {
            "borders variable"
        } else {
            "borders fixed"
        });
        let capped: Vec<usize> = cue
            .borders
            .iter()
            .map(|&border| usize::from(border).min(slots - 1))
            .collect();
        if capped.windows(2).any(|pair| pair[1] < pair[0]) {
            self.fact("borders fall back");
        }
    }

    /// Time rows that start from the kept row, and those that cannot.
    fn rows(&mut self, before: &mut Before, cue: &Cue) {
        if cue.envelopes == 0 {
            return;
        }
        let kinds: [&[Row]; 4] = [&cue.iid, &cue.icc, &cue.ipd, &cue.opd];
        for (kept, rows) in before.kept.iter_mut().zip(kinds) {
            let count = rows.first().map(|row| row.deltas.len());
            if rows.first().is_some_and(|row| row.time) {
                self.fact(match *kept {
                    None => "time row with no kept row",
                    Some(_) if *kept == count => "time row from a kept row",
                    Some(_) => "time row after a change of count",
                });
            }
            *kept = count;
        }
    }

    pub fn print(&self) {
        for (answer, count) in &self.answers {
            println!("answer {answer}: {count}");
        }
        for (fact, count) in &self.facts {
            println!("  {fact}: {count}");
        }
    }
}

fn absent(present: bool) -> &'static str {
    if present { "" } else { " (absent)" }
}

fn edge_name(edge: u64) -> &'static str {
    match edge {
        0 => "edge 0",
        32 => "edge 32",
        64 => "edge 64",
        1..=63 => "edge between",
        u64::MAX => "edge largest",
        _ => "edge above 64",
    }
}
