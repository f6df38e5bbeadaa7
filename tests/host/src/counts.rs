// Counts: the number of bursts of a transfer, without its plan.

use crate::coverage::{Coverage, Function};
use crate::plans::{Transfer, MOST_BYTES, PAGE, TOP};
use crate::reference;
use independent::answer;
use shared::interface::{belikumba_count, Planned};
use shared::random::Random;
use shared::settings::{BEATS, WIDTHS};

/// The longest transfers with all settings, from starts of every kind.
pub fn longest(_: &mut Random, coverage: &mut Coverage) -> Result<(), String> {
    let last_start = u32::MAX - MOST_BYTES + 1;
    for width in WIDTHS {
        for beats in BEATS {
            for start in [0, 1, width - 1, width, PAGE - width - 1, PAGE - 1, last_start] {
                count(Transfer { width, beats, start, count: MOST_BYTES }, coverage)?;
            }
        }
    }
    Ok(())
}

/// One count, which is handed back.
pub fn count(transfer: Transfer, coverage: &mut Coverage) -> Result<Planned, String> {
    let Transfer { width, beats, start, count } = transfer;
    // SAFETY: the header: it is lent nothing, and takes any numbers.
    let given = unsafe { belikumba_count(width, beats, start, count) };
    let expected = reference::count(width, beats, start, count);
    if given != expected {
        return Err(format!(
            "count of {transfer:?}\n  library  {given:?}\n  expected {expected:?}"
        ));
    }
    coverage.answer(Function::Count, given.answer, width, beats);
    coverage.beside(Function::Count, given.answer, &[(7, transfer.out_of_range())]);
    see(transfer, given, coverage);
    Ok(given)
}

fn see(transfer: Transfer, counted: Planned, coverage: &mut Coverage) {
    let Transfer { width, beats, start, count } = transfer;
    if counted.answer == answer::PLAN {
        coverage.see_if(count == 0, "count of no bytes");
        coverage.see_if(count == MOST_BYTES + 1, "count of 8,388,608 bytes");
        coverage.see_if(transfer.end() == TOP + 1, "count one byte past 2^32");
    }
    if counted.answer != answer::DONE {
        return;
    }
    coverage.see_if(transfer.end() == TOP, "count up to 2^32");
    coverage.see_if(count == MOST_BYTES, "count of 8,388,607 bytes");

    // Both from the first page's start on.
    let (first, end) = (start % PAGE, start % PAGE + count);
    let parts = first > 0 && end > PAGE && !end.is_multiple_of(PAGE);
    let whole = first == 0 && end.is_multiple_of(PAGE);
    coverage.see_if(end <= PAGE, "count within one page");
    coverage.see_if(whole, "count of whole pages alone");
    coverage.see_if(parts && end < 2 * PAGE, "count of a part of one page and a part of the next");
    coverage.see_if(parts && end > 2 * PAGE, "count of whole pages between two parts");
    coverage.see_if(width * beats > PAGE && end > PAGE, "count with bursts cut by pages alone");
    let from_the_word = reference::count(width, beats, start - start % width, count);
    let more = from_the_word.bursts < counted.bursts;
    coverage.see_if(more, "count with one burst more than from its first word's start");
}
