//! What the compared calls of the mender were: counted from the calls themselves, so that the counts printed are real.

use crate::listing::{arc_checks, ARCS_MAX, METRES_MAX, NODE_MAX};
use crate::mender::{changes_of, is_clean, old_numbers, Change, Mend, Mended};
use crate::mender::{INPUT_BYTES_MAX, LENGTH, NODE, PAST, REASONS};
use crate::mesh::{arcs_of, torn_end, Arc, ARC_BYTES};

/// Inputs of so many bytes are counted each; the last is one too long.
const LENGTHS: [usize; 6] = [0, 2_047, 2_048, 2_049, INPUT_BYTES_MAX, INPUT_BYTES_MAX + 1];

#[derive(Default)]
pub struct MenderCounts {
    mended: usize,
    clean: usize,
    /// Inputs with arcs, of which none was kept.
    none_left: usize,
    /// Refused with 2, with 13, and with 2 where 13 would apply too.
    refused: [usize; 3],
    lengths: [usize; LENGTHS.len()],
    /// Torn ends: all, of 1 byte, of 15 bytes, with nothing before them.
    torn: [usize; 4],
    /// Of records, by reason.
    listed: [usize; REASONS.len()],
    /// Arcs that have more than one.
    several_faults: usize,
    behind: Behind,
    kept: usize,
    shifted: usize,
    /// The most that a number shifted by, and the most bytes of an input, of its table, and of its list.
    farthest: usize,
    most: [usize; 3],
    outputs: Outputs,
    limits: Limits,
}

/// What lies behind 128 kept arcs.
#[derive(Default)]
struct Behind {
    full_tables: usize,
    /// Inputs with more arcs to keep than 128, and those of them that have faulty arcs behind the 128th kept too.
    over: usize,
    over_with_faults: usize,
    listed: [usize; REASONS.len()],
}

/// The place of a record's reason among those that there are.
fn reason(change: &Change) -> usize {
    REASONS.iter().position(|reason| reason.0 == change.reason).expect("a reason that is given")
}

impl Behind {
    fn add(&mut self, changes: &[Change], last_kept: u16) {
        let behind: Vec<&Change> = changes.iter().filter(|change| change.old > last_kept).collect();
        let over = behind.iter().any(|change| change.reason == PAST);
        let faulty = behind.iter().any(|change| (NODE..=LENGTH).contains(&change.reason));
        self.full_tables += 1;
        self.over += usize::from(over);
        self.over_with_faults += usize::from(over && faulty);
        for change in behind {
            self.listed[reason(change)] += 1;
        }
    }
}

/// How the outputs fit.
#[derive(Default)]
struct Outputs {
    both_just_fit: usize,
    /// Of tables and of lists: one byte too short, longer than they must be, and so long that 16 bits do not hold it.
    short: [usize; 2],
    longer: [usize; 2],
    huge: usize,
}

impl Outputs {
    fn add(&mut self, mend: &Mend) {
        let (sizes, room) = ([mend.table_size, mend.list_size], mend.room());
        self.both_just_fit += usize::from(sizes == [room; 2]);
        self.huge += usize::from(sizes.iter().any(|&size| size > 65_535));
        for (output, size) in sizes.into_iter().enumerate() {
            self.short[output] += usize::from(size + 1 == room);
            self.longer[output] += usize::from(size > room);
        }
    }
}

/// Arcs at a limit, and one past it.
#[derive(Default)]
struct Limits {
    nodes: [usize; 2],
    metres: [usize; 2],
}

impl Limits {
    fn add(&mut self, arc: &Arc) {
        for past in 0..2 {
            let node = NODE_MAX + past as u32;
            self.nodes[past] += usize::from(u32::from(arc.tail) == node || u32::from(arc.head) == node);
            self.metres[past] += usize::from(arc.metres == METRES_MAX + past as u32);
        }
    }
}

impl MenderCounts {
    pub fn add(&mut self, mend: &Mend, outcome: &Result<Mended, u32>) {
        for (count, length) in self.lengths.iter_mut().zip(LENGTHS) {
            *count += usize::from(mend.input.len() == length);
        }
        self.outputs.add(mend);
        match outcome {
            Err(number) => {
                self.refused[usize::from(*number != 2)] += 1;
                self.refused[2] += usize::from(mend.refusals().len() == 2);
            }
            Ok(mended) => self.add_mended(&mend.input, mended),
        }
    }

    fn add_mended(&mut self, input: &[u8], mended: &Mended) {
        let (arcs, changes) = (arcs_of(input), changes_of(&mended.list));
        let old = old_numbers(&mended.list, mended.table.len() / ARC_BYTES);
        self.mended += 1;
        self.clean += usize::from(is_clean(input));
        self.none_left += usize::from(old.is_empty() && !arcs.is_empty());
        self.add_torn(input);
        for change in &changes {
            self.listed[reason(change)] += 1;
        }
        for arc in &arcs {
            self.several_faults += usize::from(arc_checks(arc).iter().filter(|check| check.1).count() > 1);
            self.limits.add(arc);
        }
        if old.len() == ARCS_MAX {
            self.behind.add(&changes, old[ARCS_MAX - 1]);
        }
        for (new, &old) in old.iter().enumerate() {
            let shift = usize::from(old) - new;
            self.kept += 1;
            self.shifted += usize::from(shift > 0);
            self.farthest = self.farthest.max(shift);
        }
        for (most, bytes) in self.most.iter_mut().zip([input.len(), mended.table.len(), mended.list.len()]) {
            *most = bytes.max(*most);
        }
    }

    fn add_torn(&mut self, input: &[u8]) {
        let torn = torn_end(input).len();
        let alone = torn > 0 && input.len() < ARC_BYTES;
        for (count, fits) in self.torn.iter_mut().zip([torn > 0, torn == 1, torn == 15, alone]) {
            *count += usize::from(fits);
        }
    }

    pub fn print(&self) {
        let [long, short, both] = self.refused;
        println!(
            "  mended {}, clean {}, with no arc left {}; refused 2: {long}, 13: {short}; both at once {both}",
            self.mended, self.clean, self.none_left
        );
        let lengths = named(&LENGTHS.map(|length| length.to_string()), &self.lengths);
        let [torn, by_one, by_fifteen, alone] = self.torn;
        println!("  inputs of so many bytes: {lengths}");
        println!("  torn ends {torn}, of 1 byte {by_one}, of 15 {by_fifteen}, with no arc before them {alone}");
        let listed = named(&REASONS.map(|reason| reason.1), &self.listed);
        println!("  listed: {listed}; arcs with several faults {}", self.several_faults);
        let Behind { full_tables, over, over_with_faults, listed } = &self.behind;
        println!(
            "  128 arcs kept {full_tables}, over 128 to keep {over}, with faulty arcs behind them {over_with_faults}"
        );
        println!("  listed behind 128 kept: {}", named(&REASONS.map(|reason| reason.1), listed));
        let [input, table, list] = self.most;
        println!(
            "  arcs kept {}, their number shifted {}, by at most {}; at most {input} bytes in, {table} of a table and \
             {list} of a list out",
            self.kept, self.shifted, self.farthest
        );
        let Outputs { both_just_fit, short, longer, huge } = &self.outputs;
        println!(
            "  outputs that just fit {both_just_fit}; a byte too short: table {}, list {}; longer: table {}, list {}; \
             over 65535 bytes {huge}",
            short[0], short[1], longer[0], longer[1]
        );
        let Limits { nodes, metres } = &self.limits;
        println!(
            "  arcs with node 31 {}, 32 {}; of 2000000 m {}, 2000001 m {}",
            nodes[0], nodes[1], metres[0], metres[1]
        );
    }
}

/// Each count behind what it counts.
fn named(names: &[impl std::fmt::Display], counts: &[usize]) -> String {
    let named: Vec<String> = names.iter().zip(counts).map(|(name, count)| format!("{name} {count}")).collect();
    named.join(", ")
}
