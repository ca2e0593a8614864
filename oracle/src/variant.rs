//! One variant of the Rust behind `Judge`. The build copies this file to the root of each.
#![allow(dead_code, unused_variables, unused_imports)]

pub mod ps_data;
pub mod ps_decoder;
pub mod ps_decorr;
pub mod ps_hybrid;
pub mod ps_map;
pub mod ps_stereo;
pub mod sbr_qmf;

use crate::bits::BitReader;
use crate::judge::{Judge, Stages};
use crate::line::{READER, Row};
use ps_data::{PsConfig, PsData};
use sbr_qmf::Complex;
use std::cell::RefCell;

#[derive(Debug)]
pub enum Error {
    PsDataInvalid,
    SbrQmfInvalid,
}

pub type Result<T> = core::result::Result<T, Error>;

/// Stands in for the Huffman tables, which only the Rust's own parse reads.
pub mod ps_huffman {
    pub const HUFF_IID_DF: [(u8, u32); 0] = [];
    pub const HUFF_IID_DT: [(u8, u32); 0] = [];
    pub const HUFF_IID_FINE_DF: [(u8, u32); 0] = [];
    pub const HUFF_IID_FINE_DT: [(u8, u32); 0] = [];
    pub const HUFF_ICC_DF: [(u8, u32); 0] = [];
    pub const HUFF_ICC_DT: [(u8, u32); 0] = [];
    pub const HUFF_IPD_DF: [(u8, u32); 0] = [];
    pub const HUFF_IPD_DT: [(u8, u32); 0] = [];
    pub const HUFF_OPD_DF: [(u8, u32); 0] = [];
    pub const HUFF_OPD_DT: [(u8, u32); 0] = [];

    pub fn ps_huff_dec(
        _reader: &mut crate::bits::BitReader<'_>,
        _table: &[(u8, u32)],
        _largest: i32,
    ) -> super::Result<i32> {
        Err(super::Error::PsDataInvalid)
    }
}

/// Takes the place of `PsData::parse`: the reader carries an accepted line's bytes.
pub fn data_of_line(
    reader: &mut BitReader<'_>,
    _config: Option<&PsConfig>,
) -> Result<Option<PsData>> {
    Ok(Some(data(reader.bytes)))
}

/// The `PsData` that an accepted line's bytes stand for.
pub fn data(bytes: &[u8]) -> PsData {
    let Ok(cue) = READER.cue(bytes) else {
        panic!("only accepted lines reach the Rust")
    };
    let times = |rows: &[Row]| rows.iter().map(|row| row.time).collect();
    let deltas = |rows: &[Row]| rows.iter().map(|row| row.deltas.clone()).collect();
    PsData {
        header_present: true,
        config: PsConfig {
            enable_iid: cue.iid_present,
            iid_mode: cue.iid_mode,
            enable_icc: cue.icc_present,
            icc_mode: cue.icc_mode,
            enable_ext: cue.phase,
        },
        frame_class: cue.variable,
        num_env: cue.envelopes,
        border_position: cue.borders.clone(),
        iid_dt: times(&cue.iid),
        iid_deltas: deltas(&cue.iid),
        icc_dt: times(&cue.icc),
        icc_deltas: deltas(&cue.icc),
        enable_ipdopd: cue.phase,
        ipd_dt: times(&cue.ipd),
        ipd_deltas: deltas(&cue.ipd),
        opd_dt: times(&cue.opd),
        opd_deltas: deltas(&cue.opd),
    }
}

thread_local! {
    // None while nobody watches.
    static WATCHED: RefCell<Option<Stages>> = const { RefCell::new(None) };
}

/// The driver calls this between mixing and synthesis.
pub fn look(s: &[Vec<Complex>], d: &[Vec<Complex>], l: &[Vec<Complex>], r: &[Vec<Complex>]) {
    WATCHED.with_borrow_mut(|watched| {
        if let Some(stages) = watched {
            *stages = Stages {
                hybrid: flat(s),
                decorrelated: flat(d),
                left: flat(l),
                right: flat(r),
            };
        }
    });
}

fn flat<T: AsRef<[Complex]>>(rows: &[T]) -> Vec<f64> {
    let numbers = rows.iter().flat_map(|row| row.as_ref().iter());
    numbers.flat_map(|number| [number.re, number.im]).collect()
}

fn rows(input: &[f64]) -> Vec<[Complex; 64]> {
    let row = |numbers: &[f64]| {
        core::array::from_fn(|band| Complex::new(numbers[2 * band], numbers[2 * band + 1]))
    };
    input.chunks_exact(128).map(row).collect()
}

pub struct Variant {
    decoder: ps_decoder::PsDecoder,
}

impl Judge for Variant {
    fn fresh(asked: usize) -> Self {
        Variant {
            decoder: ps_decoder::PsDecoder::new_slots(asked),
        }
    }

    fn frame(&mut self, bytes: Option<&[u8]>, input: &[f64], edge: usize) -> (Vec<f64>, Vec<f64>) {
        let done = self.decoder.process(bytes, &rows(input), edge);
        let (left, right) = done
            .expect("accepted frames are done")
            .expect("a configuration");
        (flat(&left), flat(&right))
    }

    fn watch(on: bool) {
        WATCHED.set(on.then(Stages::default));
    }

    fn stages() -> Stages {
        WATCHED.replace(Some(Stages::default())).unwrap_or_default()
    }
}
