// Lengths of 2^32 and more, of which the low 32 bits are few. The system lends that much without
// using it, since nothing but its first and last bytes is looked at; where it lends less, these
// cases are not tried.

use std::alloc::{alloc_zeroed, dealloc, Layout};

use crate::reference;
use crate::states::fresh;
use shared::interface::{
    belikumba_judge, belikumba_plan, belikumba_run, belikumba_step, Judged, Planned, Ran, Stepped,
};
use shared::words::{CHAIN_MODE, FETCH, PHASE};

const TOP: usize = 1 << 32;
/// Bytes at each end that are looked at.
const LOOKED_AT: usize = 4096;

/// Many bytes, all 0 at first.
struct Vast {
    bytes: *mut u8,
    layout: Layout,
}

impl Vast {
    fn new(length: usize) -> Option<Vast> {
        let layout = Layout::from_size_align(length, 16).ok()?;
        // SAFETY: the length is not 0.
        let bytes = unsafe { alloc_zeroed(layout) };
        (!bytes.is_null()).then_some(Vast { bytes, layout })
    }

    fn ends(&mut self) -> [&mut [u8]; 2] {
        // SAFETY: both ends lie within the bytes, which were set to 0, and do not overlap.
        unsafe {
            let last = self.bytes.add(self.layout.size() - LOOKED_AT);
            [self.bytes, last].map(|end| std::slice::from_raw_parts_mut(end, LOOKED_AT))
        }
    }
}

impl Drop for Vast {
    fn drop(&mut self) {
        // SAFETY: they were lent by `alloc_zeroed` with this layout.
        unsafe { dealloc(self.bytes, self.layout) }
    }
}

/// The names of the cases that were tried; the error tells what differed.
pub fn vast() -> Result<Vec<&'static str>, String> {
    let mut tried = Vec::new();
    if let Some(vast) = Vast::new(TOP + 4096) {
        memory(vast)?;
        tried.push("memory of 2^32 + 4,096 bytes");
    }
    if let Some(vast) = Vast::new(TOP + 4096) {
        places(vast)?;
        tried.push("places of 2^32 bytes");
    }
    if let Some(vast) = Vast::new(4 * (TOP + 2)) {
        windows(vast)?;
        tried.push("2^32 + 2 numbers of windows");
    }
    Ok(tried)
}

/// Answers of a step and a run, before which nothing may have changed.
fn refused(
    answer: u32,
    memory: (*mut u8, usize),
    windows: (*const u32, usize),
) -> Result<(), String> {
    // A fetch at 0 would find a descriptor whose count is 0.
    let mut engine = fresh(4, 16);
    engine[CHAIN_MODE] = 1;
    engine[PHASE] = FETCH;
    let mut words = engine;
    // SAFETY: the header: these calls reach the words, and the bytes and numbers of the lengths
    // that are lent.
    let (stepped, ran) = unsafe {
        (
            belikumba_step(words.as_mut_ptr(), memory.0, memory.1, windows.0, windows.1),
            belikumba_run(words.as_mut_ptr(), memory.0, memory.1, windows.0, windows.1, 5),
        )
    };
    let expected = (Stepped { answer, event: 0, first: 0, second: 0 }, Ran { answer, steps: 0 });
    if (stepped, ran) != expected || words != engine {
        return Err(format!(
            "step and run with {} bytes of memory and {} numbers of windows\n  \
             library  {stepped:?}, {ran:?}, engine {words:?}\n  expected {expected:?}",
            memory.1, windows.1
        ));
    }
    Ok(())
}

fn memory(mut vast: Vast) -> Result<(), String> {
    refused(2, (vast.bytes, vast.layout.size()), (std::ptr::null(), 0))?;
    if vast.ends().iter().any(|end| end.iter().any(|byte| *byte != 0)) {
        return Err("a refused step or run changed a memory above 2^32 bytes".to_string());
    }
    Ok(())
}

fn windows(vast: Vast) -> Result<(), String> {
    let mut memory = vec![0; 64];
    refused(6, (memory.as_mut_ptr(), memory.len()), (vast.bytes.cast(), TOP + 2))?;
    if memory != [0; 64] {
        return Err("a refused step or run changed the memory beside its windows".to_string());
    }
    // SAFETY: the header: it reads the lent numbers alone.
    let given = unsafe { belikumba_judge(64, vast.bytes.cast(), TOP + 2, 0, 1) };
    let expected = Judged { answer: 6, verdict: 0, place: 0, window: 0 };
    if given != expected {
        return Err(format!("judgement beside 2^32 + 2 numbers of windows: {given:?}"));
    }
    Ok(())
}

fn places(mut vast: Vast) -> Result<(), String> {
    let mut expected_places = vec![0; LOOKED_AT];
    let expected = reference::plan(4, 16, 3, 5000, &mut expected_places);
    // SAFETY: the header: it writes to the lent bytes alone.
    let given: Planned = unsafe { belikumba_plan(4, 16, 3, 5000, vast.bytes, TOP) };
    let [first, last] = vast.ends();
    if given != expected || first != expected_places || last.iter().any(|byte| *byte != 0) {
        return Err(format!(
            "plan into 2^32 bytes of places: {given:?}, not {expected:?}, or other places"
        ));
    }
    Ok(())
}
