//! Random tables from the field, from a fixed seed: clean, with faults of every kind, torn, with too many arcs, too
//! long, and noise; and outputs that just fit, just do not, or are far longer.

use crate::listing::{ARCS_MAX, METRES_MAX};
use crate::mender::{Mend, INPUT_BYTES_MAX};
use crate::mesh::{table_bytes, Arc, ARC_BYTES};
use crate::random::{number_spans, spoil, two_nodes, Dice, SPANS_PERCENT};

/// The arcs of the longest input that is mended.
const INPUT_ARCS_MAX: usize = INPUT_BYTES_MAX / ARC_BYTES;

// ---- Arcs ----

/// An arc without a fault, often at a limit; it seldom equals another, so that one in another's place shows.
fn sound_arc(dice: &mut Dice) -> Arc {
    let (tail, head) = if dice.percent(20) { dice.pick(&[(0, 31), (31, 0), (30, 31)]) } else { two_nodes(dice, 32) };
    let metres = dice.between(0, METRES_MAX as usize) as u32;
    let metres = dice.pick(&[0, 1, METRES_MAX - 1, METRES_MAX, metres, metres, metres]);
    let (few, many) = (1 << dice.below(64) | 1 << dice.below(64), dice.roll());
    let risks = dice.pick(&[0, few, few, few, many, u64::MAX]);
    Arc { tail, head, span: 0, metres, risks }
}

/// Mostly one fault, now and then several.
fn faulty_arc(dice: &mut Dice) -> Arc {
    let mut arc = sound_arc(dice);
    let faults = dice.pick(&[1, 1, 1, 2, 3, 5]);
    for _ in 0..faults {
        spoil(dice, &mut arc);
    }
    arc
}

/// So many arcs, of which so many in a hundred have a fault.
fn arcs(dice: &mut Dice, count: usize, faulty_percent: usize) -> Vec<Arc> {
    (0..count).map(|_| if dice.percent(faulty_percent) { faulty_arc(dice) } else { sound_arc(dice) }).collect()
}

/// Half of the tables have spans that are known.
fn spanned(dice: &mut Dice, mut table: Vec<Arc>) -> Vec<Arc> {
    if dice.percent(SPANS_PERCENT) {
        number_spans(dice, &mut table);
    }
    table
}

// ---- Inputs ----

fn some_percent(dice: &mut Dice) -> usize {
    dice.pick(&[0, 2, 10, 30, 60, 100])
}

/// A table that the planner could have been given.
fn short_table(dice: &mut Dice, faulty_percent: usize) -> Vec<Arc> {
    let most = dice.pick(&[2, 10, 60, ARCS_MAX]);
    let count = dice.between(0, most);
    arcs(dice, count, faulty_percent)
}

/// 128 arcs or a few more, mostly with few faults, and behind them arcs with many: both often lie behind 128 kept ones.
fn crowded_table(dice: &mut Dice) -> Vec<Arc> {
    let before = ARCS_MAX + dice.pick(&[0, 0, 1, 5, 20, 60]);
    let behind = dice.between(0, INPUT_ARCS_MAX - before);
    let few = dice.pick(&[0, 0, 2, 10, 25]);
    let many = dice.pick(&[10, 30, 60, 90]);
    let mut table = arcs(dice, before, few);
    table.extend(arcs(dice, behind, many));
    table
}

/// One arc fewer than 128 without a fault, 128 or one more, among others with faults.
fn table_at_the_limit(dice: &mut Dice) -> Vec<Arc> {
    let sound = dice.pick(&[ARCS_MAX - 1, ARCS_MAX, ARCS_MAX + 1]);
    let faulty = dice.between(0, INPUT_ARCS_MAX - sound);
    let mut table = arcs(dice, sound, 0);
    table.extend(arcs(dice, faulty, 100));
    dice.shuffle(&mut table);
    table
}

/// Bytes that were never a table; often small ones, of which some records are arcs.
fn noise(dice: &mut Dice) -> Vec<u8> {
    let bytes = dice.between(0, INPUT_BYTES_MAX);
    let mask = dice.pick(&[255, 63, 31, 3]);
    let mut noise: Vec<u8> = (0..bytes).map(|_| dice.roll() as u8 & mask).collect();
    if dice.percent(50) {
        // Lengths that may be in range.
        noise.iter_mut().skip(6).step_by(ARC_BYTES).for_each(|byte| *byte &= 31);
        noise.iter_mut().skip(7).step_by(ARC_BYTES).for_each(|byte| *byte = 0);
    }
    noise
}

/// Exactly so many bytes of a table.
fn cut(dice: &mut Dice, bytes: usize) -> Vec<u8> {
    let percent = some_percent(dice);
    let arcs = arcs(dice, bytes / ARC_BYTES + 1, percent);
    let mut table = table_bytes(&spanned(dice, arcs));
    table.truncate(bytes);
    table
}

/// Leaves so little of the last record; nothing is left of an empty table.
fn tear(dice: &mut Dice, table: &mut Vec<u8>) {
    let some = dice.between(1, 15);
    let left = dice.pick(&[1, 15, some, some]);
    table.truncate(table.len().saturating_sub(ARC_BYTES - left));
}

fn whole_table(dice: &mut Dice) -> Vec<Arc> {
    let percent = some_percent(dice);
    let table = match dice.below(16) {
        0..=2 => short_table(dice, 0),
        3..=6 => short_table(dice, percent),
        7..=12 => crowded_table(dice),
        _ => table_at_the_limit(dice),
    };
    spanned(dice, table)
}

fn input(dice: &mut Dice) -> Vec<u8> {
    match dice.below(20) {
        0 => noise(dice),
        1..=2 => {
            let bytes = dice.pick(&[0, 2_047, 2_048, 2_049, 4_095, 4_096]);
            cut(dice, bytes)
        }
        3 => {
            // Some with low 16 bits that would be in range.
            let bytes = dice.pick(&[4_097, 4_097, 4_097, 4_111, 4_112, 8_192, 65_535, 65_536, 65_552, 69_632]);
            cut(dice, bytes)
        }
        _ => {
            let mut table = table_bytes(&whole_table(dice));
            if dice.percent(25) {
                tear(dice, &mut table);
            }
            table
        }
    }
}

// ---- Outputs ----

/// Mostly an output that just fits, now and then a longer one, and some that are too short.
fn size(dice: &mut Dice, input: usize, room: usize) -> usize {
    let shorter = dice.below(room + 1);
    match dice.below(40) {
        0 => room.saturating_sub(1),
        1 => dice.pick(&[0, input, shorter]),
        2 => dice.pick(&[65_535, 65_536, 70_000]),
        3..=12 => room + dice.pick(&[1, 15, 16, 17, 1_000, 4_096]),
        _ => room,
    }
}

/// A call of the mender.
pub fn mend(dice: &mut Dice) -> Mend {
    let fitting = Mend::fitting(input(dice));
    let (bytes, room) = (fitting.input.len(), fitting.room());
    Mend { table_size: size(dice, bytes, room), list_size: size(dice, bytes, room), ..fitting }
}
