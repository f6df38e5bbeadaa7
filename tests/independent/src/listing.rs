// The lines of a listing, put together in one buffer that goes out when it is full.
// From RULES.md, "Trace and listing". Reading: one blank between parts, decimal without
// padding, one LF.

use crate::engine::Event;
use std::io::{self, Write};

const HEADER: &[u8] = b"seq event first second\n";

/// Bytes of lines that are held before they go out.
const HELD: usize = 64 * 1024;

/// Room for one line, which has 10 + 8 + 10 + 1 + 10 + 1 bytes at the most and is written in
/// pieces of up to 16.
const LINE: usize = 64;

/// The word of a line between its blanks, filled up to eight bytes, and its length.
type Word = ([u8; 8], usize);

const fn word(text: &[u8]) -> Word {
    let mut bytes = [0; 8];
    let mut at = 0;
    while at < text.len() {
        bytes[at] = text[at];
        at += 1;
    }
    (bytes, text.len())
}

pub const SET: Word = word(b" set ");
pub const MEMORY: Word = word(b" memory ");
pub const WINDOW: Word = word(b" window ");
pub const WRITE: Word = word(b" write ");
pub const READ: Word = word(b" read ");
pub const NOREAD: Word = word(b" noread ");
pub const BUS: Word = word(b" bus ");
pub const STOP: Word = word(b" stop ");
const FETCH: Word = word(b" fetch ");
const MOVE: Word = word(b" move ");
const FAULT: Word = word(b" fault ");
const UPDATE: Word = word(b" update ");
const HALT: Word = word(b" halt ");

/// The numbers below 1,000: their digits, and in the fourth byte how many these are.
static SHORT: [[u8; 4]; 1000] = {
    let mut all = [[0; 4]; 1000];
    let mut value = 0;
    while value < 1000 {
        let digits = [(value / 100) as u8, (value / 10 % 10) as u8, (value % 10) as u8];
        let count = 1 + (value >= 10) as usize + (value >= 100) as usize;
        let mut at = 0;
        while at < count {
            all[value][at] = b'0' + digits[3 - count + at];
            at += 1;
        }
        all[value][3] = count as u8;
        value += 1;
    }
    all
};

/// The eight digits of a number below 100,000,000, the highest in the lowest byte: it is split
/// in two, each half in two, and each quarter in two, all parts at once.
#[inline]
fn eight_digits(value: u32) -> u64 {
    let (high, low) = (value / 10_000, value % 10_000);
    let halves = u64::from(high) | u64::from(low) << 32;
    // Multiplied by 10,486 and shifted is divided by 100, for a number below 10,000.
    let hundreds = ((halves * 10_486) >> 20) & 0x0000_007f_0000_007f;
    let quarters = hundreds | (halves - 100 * hundreds) << 16;
    // And by 103 is divided by 10, for a number below 100.
    let tens = ((quarters * 103) >> 10) & 0x000f_000f_000f_000f;
    tens | (quarters - 10 * tens) << 8
}

const ASCII: u64 = 0x3030_3030_3030_3030;

#[inline]
fn put<const N: usize>(line: &mut [u8; LINE], at: usize, bytes: [u8; N]) {
    line[at..at + N].copy_from_slice(&bytes);
}

/// Writes a number in decimal from `at` on, and gives the place behind it.
#[inline]
fn put_number(line: &mut [u8; LINE], at: usize, value: u32) -> usize {
    if let Some(short) = SHORT.get(value as usize) {
        put(line, at, *short);
        return at + usize::from(short[3]);
    }
    if value >= 100_000_000 {
        return put_long_number(line, at, value);
    }
    let digits = eight_digits(value);
    let zeros = digits.trailing_zeros() / 8;
    put(line, at, ((digits | ASCII) >> (8 * zeros)).to_le_bytes());
    at + 8 - zeros as usize
}

/// A number of nine or ten digits: those above the last eight, then these.
fn put_long_number(line: &mut [u8; LINE], at: usize, value: u32) -> usize {
    let at = put_number(line, at, value / 100_000_000);
    put(line, at, (eight_digits(value % 100_000_000) | ASCII).to_le_bytes());
    at + 8
}

/// The digits of the sequence number that the next lines start with.
struct Sequence {
    value: u32,
    digits: [u8; 16],
    count: usize,
}

impl Sequence {
    /// Most numbers are one above the last, and then mostly the last digit alone is another.
    #[inline]
    fn set(&mut self, value: u32) {
        let last = &mut self.digits[(self.count - 1) & 15];
        if value == self.value.wrapping_add(1) && *last < b'9' {
            *last += 1;
        } else {
            let mut line = [0; LINE];
            self.count = put_number(&mut line, 0, value);
            self.digits.copy_from_slice(&line[..16]);
        }
        self.value = value;
    }
}

/// A listing on its way to `to`.
pub struct Listing<To: Write> {
    held: Box<[u8; HELD + LINE]>,
    used: usize,
    sequence: Sequence,
    to: To,
    /// The first failure to write; what comes after it is dropped.
    written: io::Result<()>,
}

impl<To: Write> Listing<To> {
    /// Reading: the header comes before anything is read.
    pub fn new(to: To) -> Listing<To> {
        let mut held = Box::new([0; HELD + LINE]);
        held[..HEADER.len()].copy_from_slice(HEADER);
        let sequence = Sequence { value: 0, digits: [b'0'; 16], count: 1 };
        Listing { held, used: HEADER.len(), sequence, to, written: Ok(()) }
    }

    /// The sequence number of the lines that come.
    #[inline]
    pub fn number(&mut self, sequence: u32) {
        self.sequence.set(sequence);
    }

    #[inline]
    pub fn line(&mut self, word: Word, first: u32, second: u32) {
        if self.used > HELD {
            self.send();
        }
        let room = &mut self.held[self.used..self.used + LINE];
        let line: &mut [u8; LINE] = room.try_into().expect("room for a line");
        put(line, 0, self.sequence.digits);
        let at = self.sequence.count & 15;
        put(line, at, word.0);
        let mut at = put_number(line, at + word.1, first);
        line[at] = b' ';
        at = put_number(line, at + 1, second);
        line[at] = b'\n';
        self.used += at + 1;
    }

    /// The line of one step.
    /// Reading: `update` prints the word itself, `fault` and `halt` the bit's number.
    #[inline]
    pub fn event(&mut self, event: Event) {
        match event {
            Event::None => {}
            Event::Fetch { current } => self.line(FETCH, current, 0),
            Event::Move { start, bytes } => self.line(MOVE, start, bytes),
            Event::Fault { place, bit } => self.line(FAULT, place, bit),
            Event::Update { current, word } => self.line(UPDATE, current, word),
            Event::Halt { current, bit } => self.line(HALT, current, bit),
        }
    }

    /// The bad line: last good sequence, answer, the mark's position.
    pub fn bad(&mut self, last: u32, answer: u32, place: u64) {
        self.send();
        let line = format!("{last} bad {answer} {place}\n");
        self.held[..line.len()].copy_from_slice(line.as_bytes());
        self.used = line.len();
    }

    /// Sends what is held.
    #[cold]
    fn send(&mut self) {
        if self.written.is_ok() {
            self.written = self.to.write_all(&self.held[..self.used]);
        }
        self.used = 0;
    }

    /// Sends the rest, and says whether all was written.
    pub fn end(mut self) -> io::Result<()> {
        self.send();
        self.written.and_then(|()| self.to.flush())
    }

    /// False once a line could not be written.
    pub fn goes_on(&self) -> bool {
        self.written.is_ok()
    }
}
