//! A table that is mended otherwise than expected, made small and put on paper.

use crate::ask::{filled, Given};
use crate::difference::{first_written, smaller_tables, with_less_on_arcs};
use crate::mender::{is_rest_zero, numbers_of, old_numbers, Change, Mend, Mended, CHANGE_BYTES, REASONS};
use crate::mesh::{torn_end, Arc, ARC_BYTES};

// ---- Smaller cases ----

/// The same call on another input, with outputs as much too short or too long for it as before.
fn on_input(mend: &Mend, input: Vec<u8>) -> Mend {
    let fitting = Mend::fitting(input);
    let size = |before: usize| (before + fitting.room()).saturating_sub(mend.room());
    Mend { table_size: size(mend.table_size), list_size: size(mend.list_size), ..fitting }
}

/// What to try in place of a call: without many arcs, without one, without a torn end, without risks, without spans,
/// with outputs that just fit.
pub fn smaller_mends(mend: &Mend) -> Vec<Mend> {
    let mut inputs = smaller_tables(&mend.input);
    let torn = torn_end(&mend.input).len();
    if torn > 0 {
        inputs.push(mend.input[..mend.input.len() - torn].to_vec());
    }
    inputs.extend(with_less_on_arcs(&mend.input, |arc| arc.risks = 0));
    inputs.extend(with_less_on_arcs(&mend.input, |arc| arc.span = 0));
    let mut mends: Vec<Mend> = inputs.into_iter().map(|input| on_input(mend, input)).collect();
    if mend.table_size > mend.room() {
        mends.push(Mend { table_size: mend.room(), ..mend.clone() });
    }
    if mend.list_size > mend.room() {
        mends.push(Mend { list_size: mend.room(), ..mend.clone() });
    }
    mends
}

// ---- On paper ----

fn arc_on_paper(record: &[u8]) -> String {
    Arc::from_bytes(record).on_paper()
}

fn change_on_paper(record: &[u8]) -> String {
    let change = Change::from_bytes(record);
    let new = if change.is_lost() { "lost".to_string() } else { format!("now {}", change.new) };
    let reason =
        REASONS.iter().find(|reason| reason.0 == change.reason).map_or("none that is given", |reason| reason.1);
    let rest = if is_rest_zero(record) { "" } else { "  (with used bytes that are to be zero)" };
    format!("arc {} {new}, {} ({reason}){rest}", change.old, change.reason)
}

fn numbers_on_paper(numbers: &[u32]) -> String {
    format!("number {}, table of {} bytes, list of {} bytes\n", numbers[0], numbers[1], numbers[2])
}

/// What is expected: the numbers, the table by the old numbers of its arcs, and the list.
pub fn outcome_on_paper(outcome: &Result<Mended, u32>) -> String {
    let mut text = numbers_on_paper(&numbers_of(outcome));
    if let Ok(mended) = outcome {
        text += &format!("  kept {:?}\n", old_numbers(&mended.list, mended.table.len() / ARC_BYTES));
        for record in mended.list.chunks(CHANGE_BYTES) {
            text += &format!("  {}\n", change_on_paper(record));
        }
    }
    text
}

/// The records in which an output differs from what it should hold up to its end, and any byte written behind that.
fn output_differences(name: &str, expected: &[u8], end: usize, given: &[u8], on_paper: fn(&[u8]) -> String) -> String {
    let untouched = filled(expected.len());
    let mut text = String::new();
    for place in (0..end).step_by(ARC_BYTES) {
        let record = place..place + ARC_BYTES;
        let (right, wrong) = (&expected[record.clone()], &given[record.clone()]);
        if right != wrong {
            let wrong = if *wrong == untouched[record] { "nothing".to_string() } else { on_paper(wrong) };
            text += &format!("  {name} from byte {place} on: {} expected, {wrong} given\n", on_paper(right));
        }
    }
    if let Some(place) = first_written(expected, given, end) {
        text += &format!("  byte {place} of the {name} was written, behind its end\n");
    }
    text
}

/// What a call gave instead.
pub fn given_on_paper(expected: &Given, given: &Given) -> String {
    let [table_end, list_end] = [1, 2].map(|place| expected.numbers[place] as usize);
    let mut text = format!("given: {}", numbers_on_paper(&given.numbers));
    text += &output_differences("table", &expected.outputs[0], table_end, &given.outputs[0], arc_on_paper);
    text += &output_differences("list", &expected.outputs[1], list_end, &given.outputs[1], change_on_paper);
    text
}
