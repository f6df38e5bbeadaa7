// The records of a trace, and how to read them.
// From RULES.md, "Trace and listing".

use crate::monitor::Clock;

/// Bytes of the longest record, an MM with all its bytes.
pub const LONGEST: usize = 6 + 6 + MOST_BYTES as usize;
/// The most bytes of one MM record.
const MOST_BYTES: u16 = 1024;
/// The mark of the record that sets width and beats, and of the one that does so for two engines.
pub(crate) const SETTINGS_MARK: [u8; 2] = *b"CF";
const TWO_ENGINES_MARK: [u8; 2] = *b"C2";

/// The form of a trace's records.
#[derive(Clone, Copy, Debug, PartialEq, Eq)]
pub enum Form {
    /// No record carries an engine number, and C2 is an unknown mark.
    OneEngine,
    /// WR, RD and ST carry an engine number between sequence number and body.
    TwoEngines,
}

impl Form {
    /// The form of the whole trace goes by its first record's mark.
    #[inline]
    pub fn of(trace: &[u8]) -> Form {
        if trace.starts_with(&TWO_ENGINES_MARK) {
            Form::TwoEngines
        } else {
            Form::OneEngine
        }
    }

    /// Takes the engine number of a WR, RD or ST off the front, good or not.
    #[inline(always)]
    fn take_engine(self, rest: &mut &[u8]) -> Result<Option<u8>, Cause> {
        match self {
            Form::OneEngine => Ok(None),
            Form::TwoEngines => take(rest).map(|&[number]| Some(number)),
        }
    }
}

/// The body of a record; the bytes of an MM may be lent or owned. CF and C2 have the same one.
#[derive(Clone, Debug, PartialEq, Eq)]
pub enum Record<Bytes> {
    Settings { width: u16, beats: u16 },
    Memory { address: u32, bytes: Bytes },
    Window { start: u32, length: u32 },
    Write { offset: u16, value: u32 },
    Read { offset: u16 },
    Steps { steps: u16 },
    Bus(Bus),
}

/// The body of an AR record, its fields in range or not.
#[derive(Clone, Copy, Debug, Default, PartialEq, Eq)]
pub struct Bus {
    pub bits: u8,
    pub length: u8,
    pub size: u8,
    pub burst: u8,
    pub cache: u8,
    pub prot: u8,
    pub qos: u8,
    pub region: u8,
    pub id: u32,
    pub address: u32,
}

impl Bus {
    /// Is each field in its range? All are judged at once, by the bits that none in range has.
    #[inline]
    pub fn in_range(&self) -> bool {
        let Bus { bits, length, size, burst, cache, prot, qos, region, .. } = *self;
        let fields = [bits, length, size, burst, cache, prot, qos, region];
        let beyond = [!7, 0, !7, !3, !15, !7, !15, !15];
        u64::from_le_bytes(fields) & u64::from_le_bytes(beyond) == 0
    }

    /// The clock, which has three of the bits.
    #[inline]
    pub fn clock(&self) -> Clock {
        Clock {
            address: self.address,
            length: u32::from(self.length),
            size: u32::from(self.size),
            burst: u32::from(self.burst),
            cache: u32::from(self.cache),
            prot: u32::from(self.prot),
            qos: u32::from(self.qos),
            region: u32::from(self.region),
            id: self.id,
            reset_high: self.bits & 1 != 0,
            valid: self.bits & 2 != 0,
            ready: self.bits & 4 != 0,
        }
    }
}

/// A clock in range as a record has it.
impl From<&Clock> for Bus {
    fn from(clock: &Clock) -> Bus {
        let (reset_high, valid) = (u8::from(clock.reset_high), u8::from(clock.valid));
        Bus {
            bits: reset_high | valid << 1 | u8::from(clock.ready) << 2,
            length: clock.length as u8,
            size: clock.size as u8,
            burst: clock.burst as u8,
            cache: clock.cache as u8,
            prot: clock.prot as u8,
            qos: clock.qos as u8,
            region: clock.region as u8,
            id: clock.id,
            address: clock.address,
        }
    }
}

/// Why a record gets answer 10.
#[derive(Clone, Copy, Debug, PartialEq, Eq)]
pub enum Cause {
    CutInHead,
    CutInBody,
    UnknownMark,
    NoLength,
    TooLong,
    LateSettings,
}

/// Takes `N` bytes off the front, if there are as many.
#[inline]
fn take<'a, const N: usize>(rest: &mut &'a [u8]) -> Result<&'a [u8; N], Cause> {
    let (head, tail) = rest.split_first_chunk().ok_or(Cause::CutInBody)?;
    *rest = tail;
    Ok(head)
}

#[inline]
fn u16_at(bytes: &[u8], at: usize) -> u16 {
    u16::from_le_bytes([bytes[at], bytes[at + 1]])
}

#[inline]
fn u32_at(bytes: &[u8], at: usize) -> u32 {
    u32::from_le_bytes([bytes[at], bytes[at + 1], bytes[at + 2], bytes[at + 3]])
}

/// What is done with a record that was read. It is a trait and no closure, so each kind of
/// record is compiled together with what is done with it, and is never put together in between.
pub(crate) trait Taker<'a> {
    type Given;

    /// Takes a record's sequence number, the engine number if it carries one, its body, and what
    /// is behind it.
    fn take(
        self,
        sequence: u32,
        engine: Option<u8>,
        record: Record<&'a [u8]>,
        behind: &'a [u8],
    ) -> Self::Given;
}

/// A record's sequence number, the engine number if it carries one, its body, and what is behind
/// it.
pub type Parts<'a> = (u32, Option<u8>, Record<&'a [u8]>, &'a [u8]);

/// Hands the parts back.
struct HandBack;

impl<'a> Taker<'a> for HandBack {
    type Given = Parts<'a>;

    #[inline(always)]
    fn take(
        self,
        sequence: u32,
        engine: Option<u8>,
        record: Record<&'a [u8]>,
        behind: &'a [u8],
    ) -> Self::Given {
        (sequence, engine, record, behind)
    }
}

/// Does a trace start with CF or C2? Reading: the two bytes decide, whatever is behind them.
#[inline]
pub(crate) fn starts_with_settings(trace: &[u8]) -> bool {
    trace.starts_with(&SETTINGS_MARK) || Form::of(trace) == Form::TwoEngines
}

/// Reads the record at the front, or says why it gets answer 10. `form` is that of the whole
/// trace, and `first` says that the record is its first.
pub fn read(trace: &[u8], form: Form, first: bool) -> Result<Parts<'_>, Cause> {
    read_to(HandBack, trace, form, first)
}

/// The same for a taker.
#[inline(always)]
pub(crate) fn read_to<'a, T: Taker<'a>>(
    taker: T,
    trace: &'a [u8],
    form: Form,
    first: bool,
) -> Result<T::Given, Cause> {
    let Some((head, mut rest)) = trace.split_first_chunk::<6>() else {
        return Err(Cause::CutInHead);
    };
    let sequence = u32_at(head, 2);
    match [head[0], head[1]] {
        TWO_ENGINES_MARK if form == Form::OneEngine => Err(Cause::UnknownMark),
        SETTINGS_MARK | TWO_ENGINES_MARK => {
            if !first {
                return Err(Cause::LateSettings);
            }
            let body: &[u8; 4] = take(&mut rest)?;
            let record = Record::Settings { width: u16_at(body, 0), beats: u16_at(body, 2) };
            Ok(taker.take(sequence, None, record, rest))
        }
        [b'M', b'M'] => {
            let body: &[u8; 6] = take(&mut rest)?;
            let length = u16_at(body, 4);
            if length == 0 {
                return Err(Cause::NoLength);
            }
            if length > MOST_BYTES {
                return Err(Cause::TooLong);
            }
            let bytes = rest.split_off(..usize::from(length)).ok_or(Cause::CutInBody)?;
            Ok(taker.take(sequence, None, Record::Memory { address: u32_at(body, 0), bytes }, rest))
        }
        [b'S', b'W'] => {
            let body: &[u8; 8] = take(&mut rest)?;
            let record = Record::Window { start: u32_at(body, 0), length: u32_at(body, 4) };
            Ok(taker.take(sequence, None, record, rest))
        }
        [b'W', b'R'] => {
            let engine = form.take_engine(&mut rest)?;
            let body: &[u8; 6] = take(&mut rest)?;
            let record = Record::Write { offset: u16_at(body, 0), value: u32_at(body, 2) };
            Ok(taker.take(sequence, engine, record, rest))
        }
        [b'R', b'D'] => {
            let engine = form.take_engine(&mut rest)?;
            let body: &[u8; 2] = take(&mut rest)?;
            Ok(taker.take(sequence, engine, Record::Read { offset: u16_at(body, 0) }, rest))
        }
        [b'S', b'T'] => {
            let engine = form.take_engine(&mut rest)?;
            let body: &[u8; 2] = take(&mut rest)?;
            Ok(taker.take(sequence, engine, Record::Steps { steps: u16_at(body, 0) }, rest))
        }
        [b'A', b'R'] => {
            let body: &[u8; 16] = take(&mut rest)?;
            let (id, address) = (u32_at(body, 8), u32_at(body, 12));
            let [bits, length, size, burst, cache, prot, qos, region, ..] = *body;
            let bus = Bus { bits, length, size, burst, cache, prot, qos, region, id, address };
            Ok(taker.take(sequence, None, Record::Bus(bus), rest))
        }
        _ => Err(Cause::UnknownMark),
    }
}
