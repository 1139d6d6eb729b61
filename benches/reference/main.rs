//! The reference solver, plain and unproved, with which the program's answers and instructions are compared.
//!
//!     reference survey [GUESSES] < COLLECTION
//!     reference generate SEED FOLDER
//!     reference draw KIND SIDE COUNT SEED
//!
//! The first prints what `nonograde survey` does, or, with GUESSES, `nonograde survey --show --guesses GUESSES`. The second
//! writes five collections, which depend on the number SEED alone. The third prints a collection of COUNT puzzles with SIDE
//! cells a side; KIND is `pictures`, `noise` or `rough`.

mod bits;
mod generate;
mod lines;
mod solver;
mod text;

use solver::{Report, Reporter};
use std::collections::HashMap;
use std::io::{Read, Write};
use text::{entries, Entry, Puzzle};

/// The longest collection, in bytes.
const LONGEST: usize = 1 << 24;

/// Returns whether the goal's runs along each line are its clue.
fn meets(puzzle: &Puzzle, goal: &[u8]) -> bool {
    let (width, height) = (puzzle.width, puzzle.height);
    let is_clue = |line, cells: &mut dyn Iterator<Item = usize>| {
        let mut clue = puzzle.clue(line).iter();
        let mut run = 0;
        for cell in cells.map(|k| goal[k]).chain([b'0']) {
            if cell == b'1' {
                run += 1;
            } else if run > 0 {
                if clue.next() != Some(&run) {
                    return false;
                }
                run = 0;
            }
        }
        clue.next().is_none()
    };
    (0..height).all(|y| is_clue(y, &mut (y * width..(y + 1) * width)))
        && (0..width).all(|x| is_clue(height + x, &mut (x..width * height).step_by(width)))
}

fn push_name(out: &mut Vec<u8>, name: &[u8]) {
    out.extend(name.iter().map(|&byte| if byte.is_ascii_control() { b'?' } else { byte }));
    out.push(b'\n');
}

fn push_graded(out: &mut Vec<u8>, number: usize, puzzle: &Puzzle, report: &Report) {
    let goal = match &puzzle.goal {
        None => "absent",
        Some(goal) if meets(puzzle, goal) => "meets",
        Some(_) => "misses",
    };
    let Report { verdict, grade, line_known, trial_known, guesses, .. } = report;
    let (width, height) = (puzzle.width, puzzle.height);
    write!(out, "{number} {width}x{height} {verdict} {grade} {line_known} {trial_known} {guesses} {goal} ").unwrap();
}

fn push_solutions(out: &mut Vec<u8>, report: &Report) {
    for solution in &report.solutions {
        for row in solution {
            out.extend(row);
            out.push(b'\n');
        }
        out.push(b'\n');
    }
}

fn survey(entries: &[Entry], limit: u32, shows: bool) -> Vec<u8> {
    let mut reporter = Reporter::new();
    let (mut out, mut totals) = (Vec::new(), HashMap::new());
    for (k, entry) in entries.iter().enumerate() {
        match entry.read() {
            Err(fault) => {
                *totals.entry("refused").or_insert(0) += 1;
                write!(out, "{} refused {fault} ", k + 1).unwrap();
                push_name(&mut out, entry.name);
            }
            Ok(puzzle) => {
                let report = reporter.report(&puzzle, limit);
                *totals.entry(report.verdict).or_insert(0) += 1;
                *totals.entry(report.grade).or_insert(0) += 1;
                push_graded(&mut out, k + 1, &puzzle, &report);
                push_name(&mut out, entry.name);
                if shows {
                    push_solutions(&mut out, &report);
                }
            }
        }
    }
    write!(out, "entries {}", entries.len()).unwrap();
    for word in ["refused", "none", "one", "several", "unsettled", "line", "trials", "search"] {
        write!(out, " {word} {}", totals.get(word).unwrap_or(&0)).unwrap();
    }
    out.push(b'\n');
    out
}

fn print_survey(limit: Option<u32>) {
    let mut text = Vec::new();
    std::io::stdin().read_to_end(&mut text).unwrap();
    let entries = if text.len() > LONGEST { Err("TooLong".into()) } else { entries(&text) };
    match entries {
        Ok(entries) => std::io::stdout().write_all(&survey(&entries, limit.unwrap_or(1000), limit.is_some())).unwrap(),
        Err(fault) => {
            eprintln!("nonograde: {fault}");
            std::process::exit(1);
        }
    }
}

fn main() {
    let words: Vec<String> = std::env::args().skip(1).collect();
    let words: Vec<&str> = words.iter().map(|word| &word[..]).collect();
    match words[..] {
        ["survey"] => print_survey(None),
        ["survey", guesses] => print_survey(Some(guesses.parse().expect("GUESSES is no number"))),
        ["generate", seed, folder] => {
            generate::generate(seed.parse().expect("SEED is no number"), folder).expect("FOLDER can't be written");
        }
        ["draw", kind, side, count, seed] => {
            let number = |word: &str| word.parse().expect("SIDE, COUNT and SEED are numbers");
            let text = generate::drawn(kind, number(side), number(count), number(seed) as u64).expect("an unknown KIND");
            std::io::stdout().write_all(text.as_bytes()).unwrap();
        }
        _ => {
            eprintln!("usage: reference survey [GUESSES], generate SEED FOLDER, or draw KIND SIDE COUNT SEED");
            std::process::exit(2);
        }
    }
}
