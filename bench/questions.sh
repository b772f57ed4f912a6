#!/bin/sh
# The solver on questions of files, as bench/questions.py says: whether its answers are those of the files, how many
# instructions a question takes, and what they are for. The program that asks is built, proved, in a copy of the crates that it
# needs, and once more without hints on inlining, by which its instructions are shared out.
# usage: bench/questions.sh FOLDER [DIRECTORY]   (where the copy is made or found; a temporary one, if none is given)
. "$(dirname "$0")/common.sh"
[ -d "$1" ] || { echo "usage: bench/questions.sh FOLDER [DIRECTORY]" >&2; exit 64; }
folder=$1
shift
work_in "$@"

source_of() {
    cat << 'PROGRAM'
//! Asks the questions of standard input, a line each, and writes what they come to.
#![tactic(auto)]

use infeasible_cert::check::refutes;
use lia_solver::entails::entails;
use lia_solver::solve::solve;
use lia_solver::solved::{Entailed, Solved};
use linear_formula::assignment::Assignment;
use linear_formula::error::LinError;
use linear_formula::formula::{Atom, Atoms, Cube};
use linear_formula::term::{Parts, Term};
use shadow_elim::limit::{Limit, LimitKind};
use std::alloc::Global;
use std::process::ExitCode;

/// Two to the 32nd: constants of rows are beyond 64 bits, and are added up of two.
const UPPER: i128 = 1 << 32;

fn constant_of(alloc: Global, constant: i128) -> Result<Term, LinError> {
    let upper = i64::try_from(constant / UPPER).unwrap_or(0);
    let upper = Term::combine(alloc, &[], upper)?;
    let summands = vec![in alloc; (1 << 32, upper)]?;
    Term::combine(alloc, &summands, (constant % UPPER) as i64)
}

/// A row `COEFFICIENT*COLUMN .. CONSTANT`.
fn row_of(alloc: Global, text: &str) -> Result<Atom, LinError> {
    let mut summands = Vec::new(alloc);
    for word in text.split(' ') {
        match word.split_once('*') {
            Some((multiplier, column)) => {
                let column = column.parse().unwrap_or(0);
                let parts = vec![in alloc; (column, 1)]?;
                let term = Term::new(Parts::from_vec(parts), 0);
                summands.push((multiplier.parse().unwrap_or(0), term))?;
            }
            None => {
                let constant = constant_of(alloc, word.parse().unwrap_or(0))?;
                summands.push((1, constant))?;
            }
        }
    }
    let term = Term::combine(alloc, &summands, 0)?;
    Ok(Atom { term })
}

fn cube_of(alloc: Global, text: &str) -> Result<Cube, LinError> {
    let mut atoms = Atoms::new(alloc);
    for row in text.split(';') {
        if !row.is_empty() {
            atoms.push(row_of(alloc, row)?)?;
        }
    }
    Ok(Cube { atoms })
}

fn name_of(limit: &Limit) -> &'static str {
    match limit.kind() {
        LimitKind::Columns => "columns",
        LimitKind::Wide => "wide",
        LimitKind::Rows => "rows",
        LimitKind::Branches => "branches",
        LimitKind::Inexact => "inexact",
    }
}

/// What a question comes to: where the rows hold, or a word.
#[derive(Drop)]
enum Answer {
    Point(Assignment),
    Word(&'static str),
}

fn solved(alloc: Global, cube: &Cube) -> Result<Answer, LinError> {
    match solve(alloc, cube)? {
        Solved::Point(at) => Ok(Answer::Point(at)),
        Solved::Never(_) => Ok(Answer::Word("never")),
        Solved::Limit(limit) => Ok(Answer::Word(name_of(&limit))),
    }
}

/// The same, where a certificate is checked too.
fn refuted(alloc: Global, cube: &Cube) -> Result<Answer, LinError> {
    match solve(alloc, cube)? {
        Solved::Never(certificate) if !refutes(cube, &certificate) => Ok(Answer::Word("wrong")),
        Solved::Point(at) => Ok(Answer::Point(at)),
        Solved::Never(_) => Ok(Answer::Word("never")),
        Solved::Limit(limit) => Ok(Answer::Word(name_of(&limit))),
    }
}

/// The same, as whether all rows but the last one entail its negation.
fn entailed(alloc: Global, text: &str) -> Result<Answer, LinError> {
    let rows = text.strip_suffix(';').unwrap_or(text);
    let (front, last) = rows.rsplit_once(';').unwrap_or(("", rows));
    let left = cube_of(alloc, front)?;
    let mut last = row_of(alloc, last)?;
    last.negate()?;
    let mut right = Atoms::new(alloc);
    right.push(last)?;
    match entails(alloc, &left, &Cube { atoms: right })? {
        Entailed::Yes(_) => Ok(Answer::Word("never")),
        Entailed::No(at) => Ok(Answer::Point(at)),
        Entailed::Limit(kept) => Ok(Answer::Word(name_of(&kept.limit))),
    }
}

fn answer_of(alloc: Global, word: &str, text: &str) -> Result<Answer, LinError> {
    if word == "entails" {
        return entailed(alloc, text);
    }
    let cube = cube_of(alloc, text)?;
    match word {
        "read" => Ok(Answer::Word("read")),
        "refutes" => refuted(alloc, &cube),
        _ => solved(alloc, &cube),
    }
}

/// Writes an answer, with the values of a point if wanted.
fn tell(rt: &HostRuntime, answer: &Answer, values: bool) {
    match answer {
        Answer::Point(at) => {
            let _ = println!(rt; "point");
            if values {
                for (column, value) in at.values() {
                    let _ = println!(rt; "{column} {value}");
                }
            }
        }
        Answer::Word(word) => {
            let _ = println!(rt; "{word}");
        }
    }
}

/// A word behind the program's name, empty if there is none.
fn word_of(rt: &HostRuntime, place: usize) -> String {
    match std::env::args(rt) {
        Ok(mut words) => words.nth(place).unwrap_or(String::new(rt.alloc())),
        Err(_) => String::new(rt.alloc()),
    }
}

fn main(rt: HostRuntime) -> ExitCode {
    let word = word_of(&rt, 1);
    let is_quiet = !word_of(&rt, 2).is_empty();
    for line in rt.lines(rt.alloc()) {
        let Ok(line) = line else {
            return ExitCode::from(5);
        };
        let Some((_, text)) = line.as_str().split_once(' ') else {
            return ExitCode::from(4);
        };
        match answer_of(rt.alloc(), word.as_str(), text) {
            Ok(answer) if !is_quiet => tell(&rt, &answer, word.is_empty()),
            Ok(_) => {}
            Err(_) => return ExitCode::from(7),
        }
    }
    ExitCode::from(0)
}
PROGRAM
}

source_of > "$work/source.rt"
build_over question_bench read lia_solver < "$work/source.rt"
asked=$program
unhinted=yes work=$work/apart
mkdir -p "$work" || exit 70
build_over question_bench read lia_solver < "$work/../source.rt"
python3 "$top/bench/questions.py" "$asked" "$program" "$folder"
