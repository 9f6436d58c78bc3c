//! The separate program: holds the planner to document 01, with the requests that have landed, by listing every route
//! and every pair; and the mender to T-01, T-03 and T-09, by mending each table itself. Its rules are read anew from
//! those; it shares no code and no definition with the library.
//!
//!   compare listing                        holds the listing itself to the cases that 01 works by hand, and the mender
//!                                          here to tables mended by hand
//!   compare calls COUNT SEED COMMAND..     compares those cases and COUNT random calls, a third of them around closed
//!                                          arcs and a third for pairs apart, through the driver COMMAND
//!   compare long COUNT SEED COMMAND..      compares COUNT random calls on meshes with routes of 31 arcs, through the
//!                                          driver COMMAND
//!   compare rising COUNT SEED COMMAND..    compares calls on COUNT random meshes, each asked at rising allowances for a
//!                                          pair apart and for any, through the driver COMMAND, and holds the answers to
//!                                          each other
//!   compare mends COUNT SEED COMMAND..     compares those tables and COUNT random ones, through the driver COMMAND
//!   compare texts COUNT SEED COMMAND..     compares what the program COMMAND prints for those cases and COUNT inputs
//!   compare bench EVERY [apart] [closed]   prints the answer to each EVERY-th of the benchmark's cases on standard input
//!                                          that can be listed (bench/run), and `-` for the others
//!
//! It ends with status 1 at any difference, and prints the smallest mesh or table that it finds for the first one; and
//! where many random cases did not meet something that they are for.

mod apart;
mod apart_cases;
mod apart_counts;
mod apart_random;
mod ask;
mod bench;
mod blank_counts;
mod cases;
mod closed_counts;
mod closed_random;
mod counts;
mod difference;
mod listing;
mod long_random;
mod mender;
mod mender_cases;
mod mender_counts;
mod mender_difference;
mod mender_random;
mod mesh;
mod random;
mod rising;
mod span_counts;
mod tally;
mod trade;

use apart_counts::PairsApart;
use ask::{Answers, Call, Given};
use bench::Asked;
use blank_counts::{MendBlanks, PlanBlanks};
use closed_counts::ClosedSets;
use counts::Counts;
use difference::{expected_on_paper, given_on_paper, smaller_cases, smallest};
use listing::{answer, answer_to_input, case_of_input, printed, Answer};
use long_random::LongRoutes;
use mender::Mend;
use mender_counts::MenderCounts;
use mender_difference::{outcome_on_paper, smaller_mends};
use mesh::Case;
use random::Dice;
use rising::{Relations, Rise};
use span_counts::{MendSpans, PlanSpans};
use std::io::Read;
use std::process::exit;
use std::time::Instant;
use trade::Shape;

/// One input in so many is handed to the program in pieces.
const SLOW_EVERY: usize = 200;

fn main() {
    let words: Vec<String> = std::env::args().skip(1).collect();
    let same = match (words.first().map(String::as_str), words.len()) {
        (Some("listing"), 1) => hold_listing() && hold_mender(),
        (Some("calls"), 4..) => hold_listing() && compare_calls(whole(&words[1]), whole(&words[2]), &words[3..]),
        (Some("long"), 4..) => hold_listing() && compare_long(whole(&words[1]), whole(&words[2]), &words[3..]),
        (Some("rising"), 4..) => hold_listing() && compare_rising(whole(&words[1]), whole(&words[2]), &words[3..]),
        (Some("mends"), 4..) => hold_mender() && compare_mends(whole(&words[1]), whole(&words[2]), &words[3..]),
        (Some("texts"), 4..) => hold_listing() && compare_texts(whole(&words[1]), whole(&words[2]), &words[3..]),
        (Some("bench"), 2..) => answer_bench(whole(&words[1]), &words[2..]),
        _ => usage(),
    };
    exit(i32::from(!same));
}

fn usage() -> ! {
    eprintln!(
        "usage: compare listing | calls COUNT SEED DRIVER.. | long COUNT SEED DRIVER.. | rising COUNT SEED DRIVER.. | \
         mends COUNT SEED DRIVER.. | texts COUNT SEED PROGRAM.. | bench EVERY [apart] [closed]"
    );
    exit(2)
}

fn whole(word: &str) -> u64 {
    word.parse().unwrap_or_else(|_| usage())
}

/// Nothing is compared with a listing that does not give what 01 says.
fn hold_listing() -> bool {
    held("listing", cases::hold_listing())
}

/// Nor with a mender that does not give what comes out by hand.
fn hold_mender() -> bool {
    held("mender", mender_cases::hold_mender())
}

fn held(what: &str, rows: Result<usize, String>) -> bool {
    match &rows {
        Ok(rows) => println!("{what}: {rows} worked rows come out as they are said to"),
        Err(wrong) => println!("{what}: {wrong}"),
    }
    rows.is_ok()
}

// ---- The driver ----

/// How the driver's answers compare: the place of the first that differs, and whether all is well; and the answers.
struct Compared {
    first: Option<usize>,
    same: bool,
    given: Vec<Given>,
}

/// Holds the driver's answers to what is expected at each place, and prints how many differ.
fn compare(
    what: &str,
    seed: u64,
    command: &[String],
    all: &[impl Call],
    expected: impl FnMut(usize) -> Given,
) -> Compared {
    let answers = ask::driver(command, all);
    let expected = (0..all.len()).map(expected).enumerate();
    let differing: Vec<usize> = expected
        .filter(|(place, expected)| answers.given.get(*place) != Some(expected))
        .map(|(place, _)| place)
        .collect();
    let unanswered = all.len() - answers.given.len();
    let wrong = differing.len() - unanswered;
    println!("{what}: {} cases (seed {seed}), {unanswered} not answered, {wrong} answered otherwise", all.len());
    println!("  {}", answers.said);
    let same = differing.is_empty() && answers.ended_well;
    Compared { first: differing.first().copied(), same, given: answers.given }
}

/// Makes a case that differs as small as it can be, and asks for that one alone.
fn smallest_asked<C: Call + Clone>(
    command: &[String],
    case: &C,
    smaller: impl Fn(&C) -> Vec<C>,
    expected: impl Fn(&C) -> Given,
) -> (C, Answers) {
    let small = smallest(case.clone(), smaller, |cases| {
        let given = ask::driver(command, cases).given;
        (0..cases.len()).find(|&place| given.get(place) != Some(&expected(&cases[place])))
    });
    let answers = ask::driver(command, std::slice::from_ref(&small));
    (small, answers)
}

/// Prints what came of a case that was asked for alone; nothing came where the driver stopped.
fn show_given(answers: &Answers, expected: &Given, on_paper: impl Fn(&Given, &Given) -> String) {
    match answers.given.first() {
        None => println!("given: no answer; {}\n", answers.said),
        Some(given) if given == expected => println!("given: the same; it does not differ every time\n"),
        Some(given) => println!("{}", on_paper(expected, given)),
    }
}

// ---- Calls ----

fn expected_of(case: &Case, answer: &Answer) -> Given {
    Given { numbers: vec![answer.number()], outputs: vec![answer.buffer_after(ask::filled(case.reply_len))] }
}

fn compare_calls(count: u64, seed: u64, command: &[String]) -> bool {
    let mut dice = Dice::new(seed);
    let mut all: Vec<(Case, Option<Shape>)> = cases::all().into_iter().map(|row| (row.case, None)).collect();
    all.extend((0..count).map(|_| apart_random::case(&mut dice)));
    let (all, shapes): (Vec<Case>, Vec<Option<Shape>>) = all.into_iter().unzip();
    let worked = all.len() - count as usize;

    let (mut counts, mut spans, mut blanks) = (Counts::default(), PlanSpans::default(), PlanBlanks::default());
    let (mut closed, mut apart) = (ClosedSets::default(), PairsApart::default());
    let compared = compare("calls", seed, command, &all, |place| {
        let answer = answer(&all[place]);
        counts.add(Some(&all[place]), shapes[place], &answer);
        if place >= worked && all[place].apart {
            apart.add(&all[place], &answer);
        } else if place >= worked {
            spans.add(&all[place], &answer);
            blanks.add(&all[place], &answer);
            closed.add(&all[place], &answer);
        }
        expected_of(&all[place], &answer)
    });
    counts.print();
    spans.print();
    blanks.print();
    closed.print();
    apart.print();
    if let Some(first) = compared.first {
        show_call(command, &all[first]);
    }
    spans.has_met_all() & blanks.has_met_all() & closed.has_met_all() & apart.has_met_all() && compared.same
}

fn compare_long(count: u64, seed: u64, command: &[String]) -> bool {
    let mut dice = Dice::new(seed);
    let all: Vec<Case> = (0..count).map(|_| long_random::case(&mut dice)).collect();
    let mut long = LongRoutes::default();
    let compared = compare("long", seed, command, &all, |place| {
        let answer = answer(&all[place]);
        long.add(&all[place], &answer);
        expected_of(&all[place], &answer)
    });
    long.print();
    if let Some(first) = compared.first {
        show_call(command, &all[first]);
    }
    long.has_met_all() && compared.same
}

fn compare_rising(count: u64, seed: u64, command: &[String]) -> bool {
    let mut dice = Dice::new(seed);
    let rises: Vec<Rise> = (0..count).map(|_| rising::rise(&mut dice)).collect();
    let all: Vec<Case> = rises.concat();
    let compared = compare("rising", seed, command, &all, |place| expected_of(&all[place], &answer(&all[place])));
    let (mut relations, mut given, mut hold) = (Relations::default(), &compared.given[..], true);
    for rise in rises.iter().filter(|_| compared.given.len() == all.len()) {
        let (of_rise, others) = given.split_at(rise.len());
        given = others;
        if let Err((place, what)) = relations.add(rise, of_rise) {
            println!("\nDOES NOT HOLD: {what}\n{}number {}", rise[place].on_paper(), of_rise[place].numbers[0]);
            hold = false;
            break;
        }
    }
    relations.print();
    if let Some(first) = compared.first {
        show_call(command, &all[first]);
    }
    relations.has_met_all() && hold && compared.same
}

fn show_call(command: &[String], case: &Case) {
    let (small, answers) = smallest_asked(command, case, smaller_cases, |case| expected_of(case, &answer(case)));
    let answer = answer(&small);
    print!("\nDIFFERENCE\n{}{}", small.on_paper(), expected_on_paper(&answer));
    show_given(&answers, &expected_of(&small, &answer), |expected, given| given_on_paper(&small, expected, given));
}

// ---- Mends ----

fn compare_mends(count: u64, seed: u64, command: &[String]) -> bool {
    let mut dice = Dice::new(seed);
    let mut all: Vec<Mend> = mender_cases::all().into_iter().map(|row| row.mend).collect();
    all.extend((0..count).map(|_| mender_random::mend(&mut dice)));
    let worked = all.len() - count as usize;

    let (mut counts, mut spans, mut blanks) = (MenderCounts::default(), MendSpans::default(), MendBlanks::default());
    let compared = compare("mends", seed, command, &all, |place| {
        let outcome = all[place].outcome();
        counts.add(&all[place], &outcome);
        if place >= worked {
            spans.add(&all[place], &outcome);
            blanks.add(&all[place], &outcome);
        }
        all[place].expected(&outcome)
    });
    counts.print();
    spans.print();
    blanks.print();
    if let Some(first) = compared.first {
        show_mend(command, &all[first]);
    }
    spans.has_met_all() & blanks.has_met_all() && compared.same
}

fn show_mend(command: &[String], mend: &Mend) {
    let (small, answers) = smallest_asked(command, mend, smaller_mends, |mend| mend.expected(&mend.outcome()));
    let outcome = small.outcome();
    print!("\nDIFFERENCE\n{}expected: {}", small.on_paper(), outcome_on_paper(&outcome));
    show_given(&answers, &small.expected(&outcome), mender_difference::given_on_paper);
}

// ---- Texts ----

/// The cases of 01 that can be put to the program, then random inputs.
fn inputs(count: u64, dice: &mut Dice) -> Vec<(Vec<u8>, Option<Shape>)> {
    let mut worked: Vec<Vec<u8>> = cases::all().iter().filter_map(|row| row.case.input()).collect();
    worked.extend(cases::all_texts().into_iter().map(|row| row.input));
    let drawn = (0..count).map(|_| random::input(dice));
    worked.into_iter().map(|input| (input, None)).chain(drawn).collect()
}

fn compare_texts(count: u64, seed: u64, command: &[String]) -> bool {
    let all = inputs(count, &mut Dice::new(seed));
    let worked = all.len() - count as usize;
    let (mut counts, mut spans, mut blanks) = (Counts::default(), PlanSpans::default(), PlanBlanks::default());
    let mut differing = Vec::new();
    let (mut timed, mut seconds) = (0, 0.0);
    for (place, (input, shape)) in all.iter().enumerate() {
        let (case, answer) = (case_of_input(input), answer_to_input(input));
        counts.add(case.as_ref(), *shape, &answer);
        if let (Some(case), true) = (&case, place >= worked) {
            spans.add(case, &answer);
            blanks.add(case, &answer);
        }
        let slowly = place % SLOW_EVERY == 0;
        let started = Instant::now();
        if ask::program(command, input, slowly) != printed(&answer) {
            differing.push(place);
        }
        if !slowly {
            timed += 1;
            seconds += started.elapsed().as_secs_f64();
        }
    }
    println!(
        "texts: {} inputs (seed {seed}), {} printed otherwise; {:.1} ms for one run",
        all.len(),
        differing.len(),
        seconds * 1_000.0 / f64::from(timed)
    );
    counts.print();
    spans.print();
    blanks.print();
    if let Some(&first) = differing.first() {
        show_text(command, &all[first].0);
    }
    spans.has_met_all() & blanks.has_met_all() && differing.is_empty()
}

fn show_text(command: &[String], input: &[u8]) {
    let given = |input: &[u8]| ask::program(command, input, false);
    let input_of = |case: &Case| case.input().expect("it came from an input");
    let mut small = input.to_vec();
    println!("\nDIFFERENCE");
    if let Some(case) = case_of_input(input) {
        let differs = |case: &Case| given(&input_of(case)) != printed(&answer(case));
        let case = smallest(case, smaller_cases, |cases| cases.iter().position(differs));
        small = input_of(&case);
        print!("{}", case.on_paper());
    } else {
        println!("input: {small:02x?}");
    }
    let answer = answer_to_input(&small);
    let (expected, given) = (printed(&answer), given(&small));
    println!("{}expected text:\n{expected}given text:\n{given}", expected_on_paper(&answer));
    if given == expected {
        println!("(it differs only when its input comes in pieces, or not every time)");
    }
}

// ---- The benchmark ----

fn answer_bench(every: u64, words: &[String]) -> bool {
    let given = |word: &str| words.iter().any(|given| given == word);
    let mut cases = Vec::new();
    std::io::stdin().read_to_end(&mut cases).expect("cases on standard input");
    print!("{}", bench::answers(&cases, every as usize, Asked { apart: given("apart"), closed: given("closed") }));
    true
}
