//! A decoder by document 01 around a variant of the Rust: the refusals are ours, the sound its own.

use crate::judge::Judge;
use crate::line::{READER, Reader, Refusal};
use crate::samples::Noise;

pub const LARGEST_SAMPLE: f64 = 1_048_576.0;

/// One call: line, lent input, the noise that it was made from, lengths of the lent outputs, spectrum edge.
#[derive(Clone)]
pub struct Frame {
    pub line: Vec<u8>,
    pub input: Vec<f64>,
    pub noise: Noise,
    pub left: usize,
    pub right: usize,
    pub edge: u64,
}

#[derive(Clone)]
pub struct Run {
    pub asked: u64,
    pub frames: Vec<Frame>,
}

/// The answer and its place; the outputs have numbers only where the answer is 0.
pub struct Outcome {
    pub answer: u8,
    pub place: usize,
    /// How many frames in a row were held, by document 02 [4]; nobody counts them yet.
    pub held: u16,
    pub left: Vec<f64>,
    pub right: Vec<f64>,
}

pub fn slots_of(asked: u64) -> usize {
    asked.clamp(6, 32) as usize
}

pub struct Decoder<J> {
    pub judge: J,
    pub reader: Reader,
    pub slots: usize,
    configured: bool,
    held: u16,
}

impl<J: Judge> Decoder<J> {
    pub fn fresh(asked: u64) -> Self {
        let judge = J::fresh(usize::try_from(asked).unwrap_or(usize::MAX));
        Decoder {
            judge,
            reader: READER,
            slots: slots_of(asked),
            configured: false,
            held: 0,
        }
    }

    /// The refusals in document 01's order; the Rust sees accepted frames only.
    pub fn frame(&mut self, frame: &Frame) -> Outcome {
        let bytes = match accepted(&self.reader, self.slots, self.configured, frame) {
            Ok(bytes) => bytes,
            Err(Refusal { answer, place }) => {
                return Outcome {
                    answer,
                    place,
                    held: self.held,
                    left: Vec::new(),
                    right: Vec::new(),
                };
            }
        };
        self.configured = true;
        let edge = frame.edge.min(64) as usize;
        let (left, right) = self.judge.frame(bytes.as_deref(), &frame.input, edge);
        Outcome {
            answer: 0,
            place: 0,
            held: self.held,
            left,
            right,
        }
    }
}

/// An accepted frame's bytes, none for an empty line, or the answer that is not 0.
pub fn accepted(
    reader: &Reader,
    slots: usize,
    configured: bool,
    frame: &Frame,
) -> Result<Option<Vec<u8>>, Refusal> {
    let bytes = reader.bytes_of(&frame.line)?;
    if bytes.is_none() && !configured {
        return Err(Refusal::without_place(1));
    }
    let read = (slots + 6) * 128;
    let written = slots * 128;
    let input = &frame.input;
    if input.len() % 128 != 0 || input.len() < read {
        return Err(Refusal::without_place(5));
    }
    if frame.left != written || frame.right != written {
        return Err(Refusal::without_place(5));
    }
    if input[..read]
        .iter()
        .any(|sample| !(sample.abs() <= LARGEST_SAMPLE))
    {
        return Err(Refusal::without_place(6));
    }
    Ok(bytes)
}

/// A whole run from fresh state: every answer and every output number.
pub fn play<J: Judge>(run: &Run) -> Vec<Outcome> {
    let mut decoder = Decoder::<J>::fresh(run.asked);
    run.frames
        .iter()
        .map(|frame| decoder.frame(frame))
        .collect()
}
