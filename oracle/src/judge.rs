//! What the harness asks of a variant of the Rust.

/// The four places between the stages, flat, re then im, slot by slot.
#[derive(Default)]
pub struct Stages {
    pub hybrid: Vec<f64>,
    pub decorrelated: Vec<f64>,
    pub left: Vec<f64>,
    pub right: Vec<f64>,
}

pub trait Judge {
    /// A fresh decoder for that many asked slots.
    fn fresh(asked: usize) -> Self;

    /// One accepted frame: left and right, slots x 128 numbers each.
    fn frame(&mut self, bytes: Option<&[u8]>, input: &[f64], edge: usize) -> (Vec<f64>, Vec<f64>);

    /// Keep the next frames' stages for `stages`, or stop doing so.
    fn watch(on: bool);

    /// The stages of the last watched frame.
    fn stages() -> Stages;
}
