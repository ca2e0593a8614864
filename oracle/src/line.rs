//! The cue line, read by document 01 alone: answers 2, 3 and 4 in its order, each with the place that document 02 [2] gives it.

const PARAMETERS: [usize; 3] = [10, 20, 34];
const PHASE_PARAMETERS: [usize; 3] = [5, 11, 17];

/// An answer that is not 0, and its place, counted from 0: for 2 the first bad character, for 3 the count of digits, for 4 the first bad
/// byte, otherwise 0.
pub struct Refusal {
    pub answer: u8,
    pub place: usize,
}

impl Refusal {
    /// An answer that is not the line's fault.
    pub fn without_place(answer: u8) -> Refusal {
        Refusal { answer, place: 0 }
    }
}

/// Which row a time row starts from; a clean mode is asked for by document 02 [5].
#[derive(Clone, Copy)]
pub enum Mode {
    Rust,
}

/// What is taken of a line, and in which mode its rows are resolved.
#[derive(Clone, Copy)]
pub struct Reader {
    pub envelopes: u8,
    pub digits: usize,
    pub mode: Mode,
}

/// The reader that Lefasumu is compared with: the only place of its limits and its mode.
pub const READER: Reader = Reader::new(4, Mode::Rust);

/// One envelope of one kind: its time byte and its deltas.
pub struct Row {
    pub time: bool,
    pub deltas: Vec<i32>,
}

/// A line that was accepted, field by field.
pub struct Cue {
    pub iid_present: bool,
    pub icc_present: bool,
    pub variable: bool,
    pub phase: bool,
    pub iid_mode: u8,
    pub icc_mode: u8,
    pub envelopes: usize,
    pub borders: Vec<u8>,
    pub iid: Vec<Row>,
    pub icc: Vec<Row>,
    pub ipd: Vec<Row>,
    pub opd: Vec<Row>,
}

/// What a line is made of before its rows are read.
pub struct Shape {
    pub iid: Option<usize>,
    pub icc: Option<usize>,
    pub phase: Option<usize>,
    pub borders: usize,
    pub envelopes: usize,
}

impl Shape {
    /// The shape that bytes 0..3 imply; they are in range here.
    pub fn of(head: [u8; 4]) -> Shape {
        let count = |bit: u8, number: usize| (head[0] >> bit & 1 == 1).then_some(number);
        let envelopes = usize::from(head[3]);
        let iid = count(0, PARAMETERS[usize::from(head[1] % 3)]);
        let phase_parameters = match iid {
            Some(_) => PHASE_PARAMETERS[usize::from(head[1] % 3)],
            None => 0,
        };
        Shape {
            iid,
            icc: count(1, PARAMETERS[usize::from(head[2] % 3)]),
            phase: count(3, phase_parameters),
            borders: count(2, envelopes).unwrap_or(0),
            envelopes,
        }
    }

    /// The kinds' parameter counts in the order of the line.
    pub fn kinds(&self) -> [Option<usize>; 4] {
        [self.iid, self.icc, self.phase, self.phase]
    }

    pub fn bytes(&self) -> usize {
        let rows: usize = self.kinds().iter().flatten().map(|count| 1 + count).sum();
        4 + self.borders + self.envelopes * rows
    }
}

impl Reader {
    /// The limits that follow from the most envelopes.
    pub const fn new(envelopes: u8, mode: Mode) -> Reader {
        // Bytes 0 to 3, then for each envelope a border, and after a time byte each 34, 34, 17 and 17 deltas.
        let bytes = 4 + 107 * envelopes as usize;
        Reader {
            envelopes,
            digits: 2 * bytes,
            mode,
        }
    }

    /// The bytes of a line that is accepted, none for an empty one, or what refuses it.
    pub fn bytes_of(&self, line: &[u8]) -> Result<Option<Vec<u8>>, Refusal> {
        let length = Refusal {
            answer: 3,
            place: line.len(),
        };
        if line.len() > self.digits {
            return Err(length);
        }
        let mut digits = Vec::new();
        for (place, &character) in line.iter().enumerate() {
            digits.push(digit(character).ok_or(Refusal { answer: 2, place })?);
        }
        if digits.is_empty() {
            return Ok(None);
        }
        if digits.len() % 2 == 1 || digits.len() < 8 {
            return Err(length);
        }
        let pairs = digits.chunks(2);
        let bytes: Vec<u8> = pairs.map(|pair| pair[0] * 16 + pair[1]).collect();
        self.cue(&bytes)?;
        Ok(Some(bytes))
    }

    /// The fields of at least four bytes, or what refuses them.
    pub fn cue(&self, bytes: &[u8]) -> Result<Cue, Refusal> {
        let mut walk = Walk { bytes, place: 0 };
        let head = [
            walk.up_to(15)?,
            walk.up_to(5)?,
            walk.up_to(5)?,
            walk.up_to(self.envelopes)?,
        ];
        let shape = Shape::of(head);
        if bytes.len() != shape.bytes() {
            return Err(Refusal {
                answer: 3,
                place: 2 * bytes.len(),
            });
        }
        let mut borders = Vec::new();
        for _ in 0..shape.borders {
            borders.push(walk.up_to(31)?);
        }
        let mut kinds = Vec::new();
        for kind in shape.kinds() {
            kinds.push(walk.rows(kind, shape.envelopes)?);
        }
        let [iid, icc, ipd, opd] = <[Vec<Row>; 4]>::try_from(kinds).ok().expect("four kinds");
        Ok(Cue {
            iid_present: shape.iid.is_some(),
            icc_present: shape.icc.is_some(),
            variable: head[0] & 4 != 0,
            phase: shape.phase.is_some(),
            iid_mode: head[1],
            icc_mode: head[2],
            envelopes: shape.envelopes,
            borders,
            iid,
            icc,
            ipd,
            opd,
        })
    }
}

fn digit(character: u8) -> Option<u8> {
    match character {
        b'0'..=b'9' => Some(character - b'0'),
        b'a'..=b'f' => Some(character - b'a' + 10),
        _ => None,
    }
}

/// A line's bytes from the first on: fields stand in the order in which document 01 looks at them.
struct Walk<'a> {
    bytes: &'a [u8],
    place: usize,
}

impl Walk<'_> {
    fn byte(&mut self) -> u8 {
        self.place += 1;
        self.bytes[self.place - 1]
    }

    /// The next byte, a field that must not be above `most`.
    fn up_to(&mut self, most: u8) -> Result<u8, Refusal> {
        let place = self.place;
        match self.byte() {
            byte if byte <= most => Ok(byte),
            _ => Err(Refusal { answer: 4, place }),
        }
    }

    fn rows(&mut self, kind: Option<usize>, envelopes: usize) -> Result<Vec<Row>, Refusal> {
        let mut rows = Vec::new();
        let Some(count) = kind else { return Ok(rows) };
        for _ in 0..envelopes {
            let time = self.up_to(1)? == 1;
            let deltas = (0..count).map(|_| i32::from(self.byte() as i8)).collect();
            rows.push(Row { time, deltas });
        }
        Ok(rows)
    }
}
