//! T-01 read literally, as T-03 and T-09 changed it: what is left of a table from the field, and the list of what was
//! lost. Each sentence of the requests is one step here, or one promise that every mended table is held to.

use crate::ask::{filled, Call, Given, MEND};
use crate::listing::{faults, is_blank, is_of_a_blank, of_blank};
use crate::listing::{ALLOWANCE_MAX, ARCS_MAX, METRES_MAX, NODE_MAX, REACH_MAX, REPLY_BYTES};
use crate::mesh::{arcs_of, number, table_bytes, table_on_paper, torn_end, Arc, Case, Request, ARC_BYTES};

pub const INPUT_BYTES_MAX: usize = 4_096;
pub const CHANGE_BYTES: usize = 16;
const LOST: u16 = 65_535;

// The reasons, as they are numbered. 4 has ended with T-03: it was for spare bytes, which now hold the span.
pub const NODE: u8 = 1;
const ENDS: u8 = 2;
pub const LENGTH: u8 = 3;
pub const PAST: u8 = 5;
const TORN: u8 = 6;

/// Every reason, and what the request calls it.
pub const REASONS: [(u8, &str); 5] =
    [(NODE, "node"), (ENDS, "equal ends"), (LENGTH, "length"), (PAST, "past 128"), (TORN, "torn end")];

/// One call of the mender: the input may be too long, and each output too short.
#[derive(Clone)]
pub struct Mend {
    pub input: Vec<u8>,
    pub table_size: usize,
    pub list_size: usize,
}

/// What the mender writes: both as bytes, as long as they are told to be.
#[derive(PartialEq)]
pub struct Mended {
    pub table: Vec<u8>,
    pub list: Vec<u8>,
}

// ---- The list ----

/// One record of the list.
#[derive(Clone, Copy)]
pub struct Change {
    pub old: u16,
    pub reason: u8,
    pub new: u16,
}

impl Change {
    fn lost(old: u16, reason: u8) -> Change {
        Change { old, reason, new: LOST }
    }

    pub fn is_lost(&self) -> bool {
        self.new == LOST
    }

    pub fn from_bytes(record: &[u8]) -> Change {
        Change { old: number(&record[0..2]) as u16, reason: record[2], new: number(&record[4..6]) as u16 }
    }

    fn to_bytes(self) -> Vec<u8> {
        let mut record = self.old.to_le_bytes().to_vec();
        record.extend([self.reason, 0]);
        record.extend(self.new.to_le_bytes());
        record.resize(CHANGE_BYTES, 0);
        record
    }
}

/// Whether a record is zero where it has no field.
pub fn is_rest_zero(record: &[u8]) -> bool {
    record[3] == 0 && record[6..].iter().all(|&byte| byte == 0)
}

pub fn changes_of(list: &[u8]) -> Vec<Change> {
    list.chunks(CHANGE_BYTES).map(Change::from_bytes).collect()
}

/// Reads the list back: the old numbers of the mended table's arcs, by their new ones. Of the numbers that the list
/// does not call lost, the first is that of arc 0, the next that of arc 1, and so on.
pub fn old_numbers(list: &[u8], arcs: usize) -> Vec<u16> {
    let lost: Vec<u16> = changes_of(list).iter().map(|change| change.old).collect();
    (0..LOST).filter(|old| !lost.contains(old)).take(arcs).collect()
}

// ---- Mending ----

/// The first of the faults for which an arc is removed.
fn removed_for(arc: &Arc) -> Option<u8> {
    if u32::from(arc.tail) > NODE_MAX || u32::from(arc.head) > NODE_MAX {
        Some(NODE)
    } else if arc.tail == arc.head {
        Some(ENDS)
    } else if arc.metres > METRES_MAX {
        Some(LENGTH)
    } else {
        None
    }
}

fn mend_table(input: &[u8]) -> Mended {
    let mut list = Vec::new();
    let mut kept = Vec::new();
    for (old, arc) in (0..).zip(arcs_of(input)) {
        match removed_for(&arc) {
            Some(reason) => list.push(Change::lost(old, reason)),
            None => kept.push((old, arc)),
        }
    }
    let past = kept.split_off(kept.len().min(ARCS_MAX));
    list.extend(past.iter().map(|&(old, _)| Change::lost(old, PAST)));
    if !torn_end(input).is_empty() {
        list.push(Change::lost((input.len() / ARC_BYTES) as u16, TORN));
    }
    list.sort_by_key(|change| change.old);
    let arcs: Vec<Arc> = kept.iter().map(|&(_, arc)| arc).collect();
    Mended { table: table_bytes(&arcs), list: list.iter().flat_map(|change| change.to_bytes()).collect() }
}

// ---- A call ----

/// The bytes that either output must have: as many as the input, rounded up to 16.
fn rounded_up(bytes: usize) -> usize {
    (bytes + 15) / 16 * 16
}

/// What is returned: the number and both lengths.
pub fn numbers_of(outcome: &Result<Mended, u32>) -> Vec<u32> {
    match outcome {
        Err(number) => vec![*number, 0, 0],
        Ok(mended) => vec![0, mended.table.len() as u32, mended.list.len() as u32],
    }
}

impl Mend {
    /// With outputs that just fit.
    pub fn fitting(input: Vec<u8>) -> Mend {
        let room = rounded_up(input.len());
        Mend { input, table_size: room, list_size: room }
    }

    pub fn room(&self) -> usize {
        rounded_up(self.input.len())
    }

    /// Which refusals apply, in order.
    pub fn refusals(&self) -> Vec<u32> {
        let checks = [
            (2, self.input.len() > INPUT_BYTES_MAX),
            (13, self.table_size < self.room() || self.list_size < self.room()),
        ];
        checks.iter().filter(|check| check.1).map(|check| check.0).collect()
    }

    /// What is written, held to what is promised of it; or the number of the refusal.
    pub fn outcome(&self) -> Result<Mended, u32> {
        if let Some(&first) = self.refusals().first() {
            return Err(first);
        }
        let mended = mend_table(&self.input);
        self.hold_to_what_is_promised(&mended);
        Ok(mended)
    }

    /// What comes back from the driver: outputs written from their beginning on, untouched behind that.
    pub fn expected(&self, outcome: &Result<Mended, u32>) -> Given {
        let mut outputs = vec![filled(self.table_size), filled(self.list_size)];
        if let Ok(mended) = outcome {
            outputs[0][..mended.table.len()].copy_from_slice(&mended.table);
            outputs[1][..mended.list.len()].copy_from_slice(&mended.list);
        }
        Given { numbers: numbers_of(outcome), outputs }
    }

    pub fn on_paper(&self) -> String {
        format!(
            "input of {} bytes, buffers of {} bytes for the table and of {} for the list\n{}",
            self.input.len(),
            self.table_size,
            self.list_size,
            table_on_paper(&self.input)
        )
    }
}

impl Call for Mend {
    const RETURNED: usize = 3;

    fn numbers(&self) -> Vec<u32> {
        vec![MEND, self.input.len() as u32, self.table_size as u32, self.list_size as u32]
    }

    fn inputs(&self) -> Vec<&[u8]> {
        vec![&self.input]
    }

    fn output_lengths(&self) -> Vec<usize> {
        vec![self.table_size, self.list_size]
    }
}

// ---- What is promised ----

/// What the planner refuses a table for, by its own rules and not by those above.
fn refusals_by_planner(table: &[u8]) -> Vec<u32> {
    let request = Request { source: 0, terminal: 1, reach: REACH_MAX, allowance: ALLOWANCE_MAX };
    faults(&Case { table: table.to_vec(), closed: None, apart: false, reply_len: REPLY_BYTES, request })
}

/// Whether the planner finds no fault in a table but a blank, which is left for a person (T-09).
pub fn is_clean(table: &[u8]) -> bool {
    refusals_by_planner(table).into_iter().all(is_of_a_blank)
}

/// What the planner is to refuse a mended table for: the first of the input's blanks that are kept, by its new number.
fn refused_for(input: &[u8], old: &[u16]) -> Vec<u32> {
    let arcs = arcs_of(input);
    let first = old.iter().position(|&old| is_blank(&arcs[usize::from(old)]));
    first.map(of_blank).into_iter().collect()
}

/// Whether a record says one of the five reasons, that the arc is lost, and nothing else.
fn is_well_formed(record: &[u8]) -> bool {
    let change = Change::from_bytes(record);
    REASONS.iter().any(|reason| reason.0 == change.reason) && change.is_lost() && is_rest_zero(record)
}

/// Whether the mended table's arc `new` is the input's arc `old`, byte for byte: its span, too.
fn is_got_back(input: &[u8], table: &[u8], old: u16, new: usize) -> bool {
    let from = usize::from(old) * ARC_BYTES;
    input[from..from + ARC_BYTES] == table[new * ARC_BYTES..(new + 1) * ARC_BYTES]
}

/// Whether the old numbers that the list gives back, and those that it calls lost, are all of the input's, each once.
fn accounts_for_all(input: &[u8], list: &[u8], given_back: &[u16]) -> bool {
    let mut old = given_back.to_vec();
    old.extend(changes_of(list).iter().map(|change| change.old));
    old.sort_unstable();
    old.into_iter().map(usize::from).eq(0..input.chunks(ARC_BYTES).len())
}

impl Mend {
    /// Holds what is expected to what T-01, T-03 and T-09 promise; a failure is a fault here or of a request.
    fn hold_to_what_is_promised(&self, mended: &Mended) {
        let (input, table, list) = (&self.input[..], &mended.table[..], &mended.list[..]);
        let unchanged = Mended { table: table.to_vec(), list: Vec::new() };
        let old = old_numbers(list, table.len() / ARC_BYTES);
        let promises = [
            ("the table is clean", is_clean(table)),
            ("a clean table passes unchanged, and no other", is_clean(input) == (table == input)),
            ("a clean table has an empty list, and no other", is_clean(input) == list.is_empty()),
            ("mending twice gives the same table as once", mend_table(table) == unchanged),
            ("both outputs fit", table.len().max(list.len()) <= self.room()),
            ("each record has a reason, and its arc is lost", list.chunks(CHANGE_BYTES).all(is_well_formed)),
            ("old numbers rise", changes_of(list).windows(2).all(|two| two[0].old < two[1].old)),
            (
                "the list gives old numbers back, and each arc is as it was",
                (0..).zip(&old).all(|(new, &old)| is_got_back(input, table, old, new)),
            ),
            ("every old number is given back or listed as lost", accounts_for_all(input, list, &old)),
            ("blanks are left, and nothing else to refuse", refusals_by_planner(table) == refused_for(input, &old)),
        ];
        for (promise, is_kept) in promises {
            assert!(is_kept, "not so: {promise}\n{}", self.on_paper());
        }
    }
}
