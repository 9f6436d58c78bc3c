//! Asks the library through the C driver, and the program `routes`.

use crate::mesh::{number, Case};
use std::io::{Read, Write};
use std::process::{Child, Command, Stdio};
use std::thread;
use std::time::Duration;

/// What the driver calls a plan, a mend, a plan around closed arcs and a plan of a pair apart.
const PLAN: u32 = 0;
pub const MEND: u32 = 1;
const AROUND: u32 = 2;
const APART: u32 = 3;

/// A call that the driver can make.
pub trait Call: Sync {
    /// How many numbers it returns.
    const RETURNED: usize;

    /// Its kind, the lengths of its inputs and outputs, and what else it is given.
    fn numbers(&self) -> Vec<u32>;

    fn inputs(&self) -> Vec<&[u8]>;

    fn output_lengths(&self) -> Vec<usize>;
}

impl Call for Case {
    const RETURNED: usize = 1;

    fn numbers(&self) -> Vec<u32> {
        let r = &self.request;
        let mut numbers = vec![match (self.apart, &self.closed) {
            (true, _) => APART,
            (false, Some(_)) => AROUND,
            (false, None) => PLAN,
        }];
        numbers.extend(self.inputs().iter().map(|input| input.len() as u32));
        numbers.extend([self.reply_len as u32, r.source, r.terminal, r.reach, r.allowance]);
        numbers
    }

    fn inputs(&self) -> Vec<&[u8]> {
        std::iter::once(&self.table).chain(&self.closed).map(|input| &input[..]).collect()
    }

    fn output_lengths(&self) -> Vec<usize> {
        vec![self.reply_len]
    }
}

/// What a call returned, and each whole output buffer after it.
#[derive(PartialEq)]
pub struct Given {
    pub numbers: Vec<u32>,
    pub outputs: Vec<Vec<u8>>,
}

/// Answers in the order of the cases, fewer where the driver stopped; what it said of its run, and how it ended.
pub struct Answers {
    pub given: Vec<Given>,
    pub said: String,
    pub ended_well: bool,
}

/// What the driver fills an output buffer with before its first call.
pub fn filled(bytes: usize) -> Vec<u8> {
    (0..bytes).map(|place| 128 + (place % 127) as u8).collect()
}

fn start(command: &[String]) -> Child {
    Command::new(&command[0])
        .args(&command[1..])
        .stdin(Stdio::piped())
        .stdout(Stdio::piped())
        .stderr(Stdio::piped())
        .spawn()
        .unwrap_or_else(|error| panic!("{}: {error}", command[0]))
}

/// What the driver reads.
fn frame(call: &impl Call) -> Vec<u8> {
    let mut frame: Vec<u8> = call.numbers().iter().flat_map(|number| number.to_le_bytes()).collect();
    call.inputs().iter().for_each(|input| frame.extend(*input));
    frame
}

fn read_bytes(from: &mut impl Read, count: usize) -> Option<Vec<u8>> {
    let mut bytes = vec![0; count];
    from.read_exact(&mut bytes).ok()?;
    Some(bytes)
}

fn read_answer<C: Call>(from: &mut impl Read, call: &C) -> Option<Given> {
    let numbers = read_bytes(from, 4 * C::RETURNED)?.chunks(4).map(|bytes| number(bytes) as u32).collect();
    let outputs: Option<_> = call.output_lengths().into_iter().map(|length| read_bytes(from, length)).collect();
    Some(Given { numbers, outputs: outputs? })
}

/// Sends all cases to one driver.
pub fn driver<C: Call>(command: &[String], cases: &[C]) -> Answers {
    let mut child = start(command);
    let mut to = child.stdin.take().expect("a pipe");
    let mut from = child.stdout.take().expect("a pipe");
    let given = thread::scope(|scope| {
        // Beside the reading, since neither pipe holds all; a driver that stops early breaks this one.
        scope.spawn(move || cases.iter().try_for_each(|case| to.write_all(&frame(case))).ok());
        cases.iter().map_while(|case| read_answer(&mut from, case)).collect()
    });
    drop(from);
    let output = child.wait_with_output().expect("the driver's end");
    let mut said = String::from_utf8_lossy(&output.stderr).trim_end().to_string();
    let ended_well = output.status.success();
    if !ended_well {
        said += &format!(" ({})", output.status);
    }
    Answers { given, said, ended_well }
}

/// Runs the program on an input and returns everything that it printed; an end by a signal is told behind it.
/// `slowly` hands the input over in three pieces, so that no single read gets all of it.
pub fn program(command: &[String], input: &[u8], slowly: bool) -> String {
    let mut child = start(command);
    let mut to = child.stdin.take().expect("a pipe");
    let pieces = if slowly { 3 } else { 1 };
    for piece in input.chunks((input.len() / pieces).max(1)) {
        if slowly {
            thread::sleep(Duration::from_millis(200));
        }
        // The program may refuse without reading all; the pipe then breaks, and what it printed counts.
        if to.write_all(piece).is_err() {
            break;
        }
    }
    drop(to);
    let output = child.wait_with_output().expect("the program's end");
    let mut printed = String::from_utf8_lossy(&output.stdout).to_string();
    printed += &String::from_utf8_lossy(&output.stderr);
    if output.status.code().is_none() {
        printed += &format!("({})\n", output.status);
    }
    printed
}
