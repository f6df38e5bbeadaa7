// The bytes of a record: the other way round from the reader of the independent program.
// From RULES.md, "Trace and listing".

use independent::record::{Bus, Record};

/// Appends a record to a trace of one engine.
pub fn encode(record: &Record<impl AsRef<[u8]>>, sequence: u32, trace: &mut Vec<u8>) {
    encode_for(None, record, sequence, trace);
}

/// Appends a record to a trace. One of two engines has an engine number, which a WR, RD or ST
/// carries, good or not; its settings have the mark C2.
pub fn encode_for(
    engine: Option<u8>,
    record: &Record<impl AsRef<[u8]>>,
    sequence: u32,
    trace: &mut Vec<u8>,
) {
    let number = engine.as_slice();
    let mut put = |mark: &[u8; 2], body: &[&[u8]]| {
        trace.extend_from_slice(mark);
        trace.extend_from_slice(&sequence.to_le_bytes());
        for part in body {
            trace.extend_from_slice(part);
        }
    };
    match record {
        Record::Settings { width, beats } => {
            let mark = if engine.is_some() { b"C2" } else { b"CF" };
            put(mark, &[&width.to_le_bytes(), &beats.to_le_bytes()]);
        }
        Record::Memory { address, bytes } => {
            let bytes = bytes.as_ref();
            let length = bytes.len() as u16;
            put(b"MM", &[&address.to_le_bytes(), &length.to_le_bytes(), bytes]);
        }
        Record::Window { start, length } => {
            put(b"SW", &[&start.to_le_bytes(), &length.to_le_bytes()]);
        }
        Record::Write { offset, value } => {
            put(b"WR", &[number, &offset.to_le_bytes(), &value.to_le_bytes()]);
        }
        Record::Read { offset } => put(b"RD", &[number, &offset.to_le_bytes()]),
        Record::Steps { steps } => put(b"ST", &[number, &steps.to_le_bytes()]),
        Record::Bus(Bus { bits, length, size, burst, cache, prot, qos, region, id, address }) => {
            let fields = [*bits, *length, *size, *burst, *cache, *prot, *qos, *region];
            put(b"AR", &[&fields, &id.to_le_bytes(), &address.to_le_bytes()]);
        }
    }
}

/// The 32 bytes of a descriptor, its unused words filled with `fill`.
pub fn descriptor(
    next: u32,
    source: u32,
    destination: u32,
    control: u32,
    status: u32,
    fill: u32,
) -> Vec<u8> {
    let words = [next, fill, source, fill, destination, fill, control, status];
    words.iter().flat_map(|word| word.to_le_bytes()).collect()
}
