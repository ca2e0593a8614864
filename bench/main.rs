//! Lefasumu through its C API, and the untouched Rust, on the same frames: time, heap allocations, memory and stack.

#[path = "../oracle/src/bits.rs"]
mod bits;
#[path = "../oracle/src/judge.rs"]
mod judge;
#[path = "../examples/rust/lefasumu.rs"]
mod lefasumu;
#[path = "../oracle/src/line.rs"]
mod line;
#[path = "../target/oracle/src/untouched/mod.rs"]
mod untouched;

use lefasumu::Decoder;
use std::alloc::{GlobalAlloc, Layout, System};
use std::hint::black_box;
use std::sync::atomic::{AtomicU64, Ordering};
use std::time::{Duration, Instant};
use untouched::ps_decoder::PsDecoder;
use untouched::sbr_qmf::Complex;

static ALLOCATIONS: AtomicU64 = AtomicU64::new(0);

/// Counts every allocation of the process.
struct Counting;

unsafe impl GlobalAlloc for Counting {
    unsafe fn alloc(&self, layout: Layout) -> *mut u8 {
        ALLOCATIONS.fetch_add(1, Ordering::Relaxed);
        unsafe { System.alloc(layout) }
    }

    unsafe fn dealloc(&self, place: *mut u8, layout: Layout) {
        unsafe { System.dealloc(place, layout) }
    }
}

#[global_allocator]
static HEAP: Counting = Counting;

const SLOTS: usize = 32;
const EDGE: usize = 48;

/// The generator of oracle/README.md.
struct Chance(u64);

impl Chance {
    fn next(&mut self) -> u64 {
        self.0 = (self.0 * 1_664_525 + 1_013_904_223) % (1 << 32);
        self.0
    }

    fn sample(&mut self) -> f64 {
        (self.next() as f64 - 2_147_483_648.0) / 2_147_483_648.0
    }
}

/// A line with IID, ICC and phase, four envelopes at fixed borders, frequency rows; modes 1 for 20 bands, 2 for 34.
fn full_line(mode: u8, chance: &mut Chance) -> Vec<u8> {
    let (parameters, phases) = if mode == 1 { (20, 11) } else { (34, 17) };
    let mut bytes = vec![0b1011, mode, mode, 4];
    for count in [parameters, parameters, phases, phases] {
        for _ in 0..4 {
            bytes.push(0);
            bytes.extend((0..count).map(|_| (chance.next() / 65_536 % 5) as u8).map(|delta| delta.wrapping_sub(2)));
        }
    }
    bytes
}

fn hexadecimal(bytes: &[u8]) -> Vec<u8> {
    bytes.iter().flat_map(|byte| format!("{byte:02x}").into_bytes()).collect()
}

/// The shortest time of a call in many rounds of a few calls, and allocations of a call.
fn measured(seconds: f64, mut call: impl FnMut()) -> (Duration, u64) {
    let end = Instant::now() + Duration::from_secs_f64(seconds);
    let mut best = Duration::MAX;
    let mut calls = 0;
    let before = ALLOCATIONS.load(Ordering::Relaxed);
    while Instant::now() < end {
        let start = Instant::now();
        for _ in 0..16 {
            call();
        }
        best = best.min(start.elapsed() / 16);
        calls += 16;
    }
    (best, (ALLOCATIONS.load(Ordering::Relaxed) - before) / calls)
}

fn compare(name: &str, first: &[u8], bytes: Option<&[u8]>, seconds: f64, chance: &mut Chance) {
    let input: Vec<f64> = (0..(SLOTS + 6) * 128).map(|_| chance.sample()).collect();
    let rows: Vec<[Complex; 64]> = input
        .chunks_exact(128)
        .map(|row| std::array::from_fn(|band| Complex::new(row[2 * band], row[2 * band + 1])))
        .collect();
    let line = bytes.map(hexadecimal).unwrap_or_default();
    let mut ours = Decoder::start(SLOTS);
    let mut theirs = PsDecoder::new_slots(SLOTS);
    assert_eq!(ours.frame(&hexadecimal(first), &input, EDGE), 0);
    theirs.process(Some(first), &rows, EDGE).expect("accepted");
    let (own, own_heap) = measured(seconds, || assert_eq!(black_box(ours.frame(&line, &input, EDGE)), 0));
    let (rust, rust_heap) = measured(seconds, || {
        black_box(theirs.process(bytes, &rows, EDGE).expect("accepted"));
    });
    println!(
        "{name:32} Lefasumu {:7.1} us {:7.0} frames/s, {own_heap} allocations; the Rust {:7.1} us {:7.0} frames/s, {rust_heap} allocations; {:.2} times its speed",
        own.as_secs_f64() * 1e6,
        1.0 / own.as_secs_f64(),
        rust.as_secs_f64() * 1e6,
        1.0 / rust.as_secs_f64(),
        rust.as_secs_f64() / own.as_secs_f64(),
    );
}

/// The deepest stack of a frame call: a thread's stack is painted below the caller, and read afterwards.
fn deepest_stack(line: Vec<u8>) -> usize {
    const ROOM: usize = 1 << 20;
    const PAINT: u8 = 0xa5;
    let thread = std::thread::Builder::new().stack_size(2 * ROOM).spawn(move || {
        let mut ours = Decoder::start(SLOTS);
        let input = vec![0.25; (SLOTS + 6) * 128];
        assert_eq!(ours.frame(&line, &input, EDGE), 0);
        let here = 0u8;
        let top = std::ptr::addr_of!(here) as usize - 4096;
        let bottom = top - ROOM;
        unsafe { std::ptr::write_bytes(bottom as *mut u8, PAINT, ROOM) };
        assert_eq!(ours.frame(&line, &input, EDGE), 0);
        let untouched = (bottom..top).take_while(|place| unsafe { *(*place as *const u8) } == PAINT).count();
        ROOM - untouched + 4096
    });
    thread.expect("a thread").join().expect("a frame")
}

fn main() {
    let seconds = std::env::args().nth(1).and_then(|word| word.parse().ok()).unwrap_or(1.0);
    let mut chance = Chance(1);
    for (bands, mode) in [(20, 1), (34, 2)] {
        let line = full_line(mode, &mut chance);
        compare(&format!("{bands} bands, 4 envelopes, phase"), &line, Some(&line), seconds, &mut chance);
        compare(&format!("{bands} bands, held by an empty line"), &line, None, seconds, &mut chance);
    }
    let numbers = Decoder::start(SLOTS).memory.len();
    println!("memory of a decoder: {numbers} numbers, {} bytes", numbers * 8);
    println!("deepest stack of a frame call, 34 bands: {} bytes", deepest_stack(hexadecimal(&full_line(2, &mut chance))));
}
