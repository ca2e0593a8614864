//! Lefasumu from Rust: the C API, and a decoder that owns its memory and outputs.

pub const ROW: usize = 128;

extern "C" {
    fn lefasumu_memory() -> usize;
    fn lefasumu_start(memory: *mut f64, memory_length: usize, slots: usize) -> u32;
    fn lefasumu_frame(
        memory: *mut f64,
        memory_length: usize,
        line: *const u8,
        line_length: usize,
        input: *const f64,
        input_length: usize,
        edge: usize,
        left: *mut f64,
        left_length: usize,
        right: *mut f64,
        right_length: usize,
    ) -> u32;
}

pub struct Decoder {
    pub memory: Vec<f64>,
    pub left: Vec<f64>,
    pub right: Vec<f64>,
}

impl Decoder {
    /// A decoder for an asked number of slots a frame, which acts as 6 to 32.
    pub fn start(asked: usize) -> Self {
        let slots = asked.clamp(6, 32);
        let mut memory = vec![0.0; unsafe { lefasumu_memory() }];
        let answer = unsafe { lefasumu_start(memory.as_mut_ptr(), memory.len(), slots) };
        assert_eq!(answer, 0, "memory of the right length");
        Decoder { memory, left: vec![0.0; slots * ROW], right: vec![0.0; slots * ROW] }
    }

    /// A frame; its answer is one of the numbers of lefasumu.h.
    pub fn frame(&mut self, line: &[u8], input: &[f64], edge: usize) -> u32 {
        unsafe {
            lefasumu_frame(
                self.memory.as_mut_ptr(),
                self.memory.len(),
                line.as_ptr(),
                line.len(),
                input.as_ptr(),
                input.len(),
                edge,
                self.left.as_mut_ptr(),
                self.left.len(),
                self.right.as_mut_ptr(),
                self.right.len(),
            )
        }
    }
}
