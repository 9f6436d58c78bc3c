//! Arcs, requests and cases: as bytes, and as people write them on paper (01, "Meshes worked by hand").

pub const ARC_BYTES: usize = 16;
pub const CLOSED_BYTES: usize = 16;
/// So many arcs of a table are put on paper: one more than the longest input that is mended has.
const ARCS_SHOWN: usize = 257;
/// So many arcs of a closed set are put on paper: one more than a set of 16 bytes can mark.
const MARKS_SHOWN: usize = 129;

/// One record of the span table, whether its fields are in range or not.
#[derive(Clone, Copy)]
pub struct Arc {
    pub tail: u8,
    pub head: u8,
    /// The span that it is one direction of (T-03); zero where that is not known.
    pub span: u16,
    pub metres: u32,
    pub risks: u64,
}

#[derive(Clone, Copy)]
pub struct Request {
    pub source: u32,
    pub terminal: u32,
    pub reach: u32,
    pub allowance: u32,
}

/// One call of a planning entry: the table may be damaged, the closed set no set, the buffer too short, the request out
/// of range.
#[derive(Clone)]
pub struct Case {
    pub table: Vec<u8>,
    /// What a call around closed arcs brings (T-06); nothing where it is a call of the entry that knows of none.
    pub closed: Option<Vec<u8>>,
    /// Whether it is a call of the entry that wants the pair apart (T-05), which brings a closed set as well.
    pub apart: bool,
    pub reply_len: usize,
    pub request: Request,
}

impl Arc {
    pub fn from_bytes(record: &[u8]) -> Arc {
        Arc {
            tail: record[0],
            head: record[1],
            span: u16::from_le_bytes([record[2], record[3]]),
            metres: number(&record[4..8]) as u32,
            risks: number(&record[8..16]),
        }
    }

    pub fn to_bytes(self) -> Vec<u8> {
        let mut record = vec![self.tail, self.head];
        record.extend(self.span.to_le_bytes());
        record.extend(self.metres.to_le_bytes());
        record.extend(self.risks.to_le_bytes());
        record
    }

    /// As 01 writes it, with the span behind it where that is known: `0,1,1000,{0} span 7`.
    pub fn on_paper(&self) -> String {
        let span = if self.span == 0 { String::new() } else { format!(" span {}", self.span) };
        format!("{},{},{},{}{}", self.tail, self.head, self.metres, risks_on_paper(self.risks), span)
    }
}

/// A little-endian number.
pub fn number(bytes: &[u8]) -> u64 {
    bytes.iter().rev().fold(0, |high, &byte| high * 256 + u64::from(byte))
}

pub fn table_bytes(arcs: &[Arc]) -> Vec<u8> {
    arcs.iter().flat_map(|arc| arc.to_bytes()).collect()
}

/// The whole records of a table; bytes left over at a torn end are no arc.
pub fn arcs_of(table: &[u8]) -> Vec<Arc> {
    table.chunks_exact(ARC_BYTES).map(Arc::from_bytes).collect()
}

/// The bytes left over at the end of a table that is no whole number of records.
pub fn torn_end(table: &[u8]) -> &[u8] {
    table.chunks_exact(ARC_BYTES).remainder()
}

/// Whether a set has the bit of an arc number, lowest bit first (T-06); bits that it is too short for are not set.
pub fn is_marked(set: &[u8], arc: usize) -> bool {
    set.get(arc / 8).is_some_and(|byte| byte >> (arc % 8) & 1 == 1)
}

/// The arc numbers whose bits are set, rising.
pub fn marked(set: &[u8]) -> Vec<usize> {
    (0..8 * set.len()).filter(|&arc| is_marked(set, arc)).collect()
}

pub fn mark(set: &mut [u8], arc: usize) {
    set[arc / 8] |= 1 << (arc % 8);
}

/// The set of so many bytes that marks these arcs.
pub fn set_of(bytes: usize, arcs: &[usize]) -> Vec<u8> {
    let mut set = vec![0; bytes];
    arcs.iter().for_each(|&arc| mark(&mut set, arc));
    set
}

/// A line for each arc, and one for a torn end.
pub fn table_on_paper(table: &[u8]) -> String {
    let arcs = arcs_of(table);
    let mut text = String::new();
    for (place, arc) in arcs.iter().enumerate().take(ARCS_SHOWN) {
        text += &format!("{place}: {}\n", arc.on_paper());
    }
    if arcs.len() > ARCS_SHOWN {
        text += &format!("and {} more\n", arcs.len() - ARCS_SHOWN);
    }
    if !torn_end(table).is_empty() {
        text += &format!("torn end: {:02x?}\n", torn_end(table));
    }
    text
}

/// The set `{0,63}` of a risk field.
pub fn risks_on_paper(risks: u64) -> String {
    let names: Vec<String> = (0..64).filter(|r| risks >> r & 1 == 1).map(|r| r.to_string()).collect();
    format!("{{{}}}", names.join(","))
}

/// The list `[0,4,3]` of a route's arc numbers.
pub fn arcs_on_paper(arcs: &[u8]) -> String {
    let names: Vec<String> = arcs.iter().map(|arc| arc.to_string()).collect();
    format!("[{}]", names.join(","))
}

/// The line of a closed set: its length, and the arcs that it marks.
fn closed_on_paper(set: &[u8]) -> String {
    let marked = marked(set);
    let more =
        if marked.len() > MARKS_SHOWN { format!(" and {} more", marked.len() - MARKS_SHOWN) } else { String::new() };
    format!("closed set of {} bytes, of arcs {:?}{more}\n", set.len(), &marked[..marked.len().min(MARKS_SHOWN)])
}

/// Reads the arcs of a mesh as 01 prints it, with a span behind each where it is known,
/// `0: 0,1,1000,{0}; 1: 1,3,4000,{1} span 7`; for the fixed cases, which are right.
pub fn from_paper(text: &str) -> Vec<Arc> {
    let plain = |word: &str| word.trim().parse::<u64>().expect("a number");
    let mut arcs = Vec::new();
    for (place, line) in text.split(';').enumerate() {
        let (name, fields) = line.split_once(':').expect("an arc number and a colon");
        assert_eq!(plain(name), place as u64, "arcs stand in order");
        let (ends, risks) = fields.split_once('{').expect("a risk set");
        let ends: Vec<u64> = ends.trim().trim_end_matches(',').split(',').map(plain).collect();
        let (risks, span) = risks.split_once('}').expect("the end of the risk set");
        let risks = if risks.is_empty() { 0 } else { risks.split(',').map(|r| 1u64 << plain(r)).sum() };
        let span = span.trim().strip_prefix("span").map_or(0, plain);
        arcs.push(Arc { tail: ends[0] as u8, head: ends[1] as u8, span: span as u16, metres: ends[2] as u32, risks });
    }
    arcs
}

impl Case {
    /// The case as a person would set it down to work it.
    pub fn on_paper(&self) -> String {
        let r = &self.request;
        format!(
            "source {}, terminal {}, reach {}, allowance {}{}\ntable of {} bytes, reply buffer of {} bytes\n{}{}",
            r.source,
            r.terminal,
            r.reach,
            r.allowance,
            if self.apart { ", the pair apart" } else { "" },
            self.table.len(),
            self.reply_len,
            self.closed.as_ref().map_or(String::new(), |set| closed_on_paper(set)),
            table_on_paper(&self.table)
        )
    }

    /// What a call around closed arcs brings; no byte of it where it is the other entry's.
    pub fn closed_set(&self) -> &[u8] {
        self.closed.as_deref().unwrap_or_default()
    }

    /// The same call of the entry that knows of no closed arcs; of that which wants the pair apart, with none closed.
    pub fn without_set(&self) -> Case {
        Case { closed: self.apart.then(|| vec![0; CLOSED_BYTES]), ..self.clone() }
    }

    /// The same call of the entry that takes any pair.
    pub fn of_any_pair(&self) -> Case {
        Case { apart: false, ..self.clone() }
    }

    pub fn with_allowance(&self, allowance: u32) -> Case {
        Case { request: Request { allowance, ..self.request }, ..self.clone() }
    }

    /// What the program `routes` reads, where the request fits its record and neither a closed set nor the wish for a
    /// pair apart comes with it.
    pub fn input(&self) -> Option<Vec<u8>> {
        let r = &self.request;
        if r.source > 255 || r.terminal > 255 || self.closed.is_some() {
            return None;
        }
        let mut input = vec![r.source as u8, r.terminal as u8, 0, 0];
        input.extend(r.reach.to_le_bytes());
        input.extend(r.allowance.to_le_bytes());
        input.extend([0; 4]);
        input.extend(&self.table);
        Some(input)
    }
}
