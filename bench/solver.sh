#!/bin/sh
# The solver on questions of a lock loop and of two counters (many times), on 60 random rows over 20 columns, on a shadow
# of 4,095 rows and on a question of 512 splits: the least user and system time of five runs, and, where valgrind is there,
# instructions.
# The program that asks them is built, proved, in a copy of the crates that it needs. It fails where an answer is another
# one, and where a limit of bench/limits.tsv is missed.
# usage: bench/solver.sh [DIRECTORY]   (where the copy is made or found; a temporary one, if none is given)
. "$(dirname "$0")/common.sh"
work_in "$@"

source_of() {
    cat << 'PROGRAM'
//! Asks the solver a question again and again.
#![tactic(auto)]

use lia_solver::solve::solve;
use lia_solver::solved::Solved;
use linear_formula::error::LinError;
use linear_formula::formula::{Atom, Atoms, Cube};
use linear_formula::term::{Parts, Term};
use shadow_elim::eliminate::eliminate;
use shadow_elim::shadow::ShadowError;
use std::alloc::Global;
use std::process::ExitCode;

type Row<'a> = (&'a [(i64, u32)], i64);

fn term_of(alloc: Global, row: &Row) -> Result<Term, LinError> {
    let mut summands = Vec::new(alloc);
    for (multiplier, column) in row.0 {
        let parts = vec![in alloc; (*column, 1)]?;
        summands.push((*multiplier, Term::new(Parts::from_vec(parts), 0)))?;
    }
    Term::combine(alloc, &summands, row.1)
}

fn push(atoms: &mut Atoms, alloc: Global, row: &Row) -> Result<(), LinError> {
    let term = term_of(alloc, row)?;
    atoms.push(Atom { term })?;
    Ok(())
}

fn cube_of(alloc: Global, rows: &[Row]) -> Result<Cube, LinError> {
    let mut atoms = Atoms::new(alloc);
    for row in rows {
        push(&mut atoms, alloc, row)?;
    }
    Ok(Cube { atoms })
}

/// The lock is held, the counters differ, and the loop is left.
fn lock(alloc: Global) -> Result<Cube, LinError> {
    let rows: [Row; 9] = [
        (&[(1, 0)], -1),
        (&[(-1, 0)], 1),
        (&[(1, 1), (-1, 2)], 0),
        (&[(-1, 1), (1, 2)], 0),
        (&[(1, 3), (-1, 1)], -1),
        (&[(-1, 3), (1, 1)], 1),
        (&[(1, 2), (-1, 3)], 1),
        (&[(1, 10000)], 0),
        (&[(-1, 4), (1, 10000)], 0),
    ];
    cube_of(alloc, &rows)
}

/// Two counters that go up together and are told apart.
fn counters(alloc: Global) -> Result<Cube, LinError> {
    let rows: [Row; 6] = [
        (&[(1, 0), (-1, 1)], 0),
        (&[(-1, 0), (1, 1)], 0),
        (&[(1, 2), (-1, 0)], -1),
        (&[(-1, 2), (1, 0)], 1),
        (&[(1, 3), (-1, 1)], -2),
        (&[(-1, 3), (1, 2)], 1),
    ];
    cube_of(alloc, &rows)
}

/// A row of small coefficients, by a linear congruential generator.
fn random_row(alloc: Global, seed: &mut u64) -> Result<Atom, LinError> {
    let mut summands = Vec::new(alloc);
    for column in 0..20 {
        *seed = seed.wrapping_mul(6364136223846793005).wrapping_add(1442695040888963407);
        let draw = (*seed >> 33) % 24;
        if draw < 5 {
            let parts = vec![in alloc; (column, 1)]?;
            summands.push((draw as i64 - 2, Term::new(Parts::from_vec(parts), 0)))?;
        }
    }
    let term = Term::combine(alloc, &summands, (*seed >> 40) as i64 % 50 - 40)?;
    Ok(Atom { term })
}

fn random(alloc: Global) -> Result<Cube, LinError> {
    let mut seed = 7;
    let mut atoms = Atoms::new(alloc);
    for _ in 0..60 {
        atoms.push(random_row(alloc, &mut seed)?)?;
    }
    Ok(Cube { atoms })
}

/// 63 upper and 63 lower rows of column 0, each with a column of its own.
fn fan(alloc: Global) -> Result<Cube, LinError> {
    let mut atoms = Atoms::new(alloc);
    for i in 0..63 {
        push(&mut atoms, alloc, &(&[(1, 0), (1, 1 + i)], 0))?;
        push(&mut atoms, alloc, &(&[(-1, 0), (1, 1001 + i)], 0))?;
    }
    Ok(Cube { atoms })
}

/// Twice one column is twice another one and 1.
fn splits(alloc: Global) -> Result<Cube, LinError> {
    let rows: [Row; 2] = [(&[(2, 0), (-2, 1)], -1), (&[(-2, 0), (2, 1)], 1)];
    cube_of(alloc, &rows)
}

#[derive(Clone, Copy)]
enum Answer {
    Point,
    Never,
    Shadow,
    Limit,
    Memory,
}

fn told(solved: &Solved) -> Answer {
    match solved {
        Solved::Point(_) => Answer::Point,
        Solved::Never(_) => Answer::Never,
        Solved::Limit(_) => Answer::Limit,
    }
}

fn ask(alloc: Global, cube: &Cube, count: u64) -> Answer {
    let mut last = Answer::Memory;
    for _ in 0..count {
        last = match solve(alloc, cube) {
            Ok(solved) => told(&solved),
            Err(_) => Answer::Memory,
        };
    }
    last
}

fn shadows(alloc: Global, cube: &Cube, count: u64) -> Answer {
    let mut last = Answer::Memory;
    for _ in 0..count {
        last = match eliminate(alloc, cube, &[0]) {
            Ok(_) => Answer::Shadow,
            Err(ShadowError::Memory) => Answer::Memory,
            Err(_) => Answer::Limit,
        };
    }
    last
}

fn asked(alloc: Global, word: &str, count: u64) -> Result<Answer, LinError> {
    match word {
        "counters" => Ok(ask(alloc, &counters(alloc)?, count)),
        "random" => Ok(ask(alloc, &random(alloc)?, count)),
        "shadow" => Ok(shadows(alloc, &fan(alloc)?, count)),
        "splits" => Ok(ask(alloc, &splits(alloc)?, count)),
        _ => Ok(ask(alloc, &lock(alloc)?, count)),
    }
}

fn main(rt: HostRuntime) -> ExitCode {
    let mut word = String::new(rt.alloc());
    let mut count = 1;
    if let Ok(words) = std::env::args(&rt) {
        for (place, next) in words.enumerate() {
            if place == 1 {
                word = next;
            } else if place == 2 {
                count = next.parse().unwrap_or(1);
            }
        }
    }
    match asked(rt.alloc(), word.as_str(), count) {
        Ok(answer) => {
            let text = match answer {
                Answer::Point => "point",
                Answer::Never => "never",
                Answer::Shadow => "shadow",
                Answer::Limit => "limit",
                Answer::Memory => "memory",
            };
            let _ = println!(rt; "{text}");
            ExitCode::from(0)
        }
        Err(_) => ExitCode::from(1),
    }
}
PROGRAM
}

source_of > "$work/source.rt"
build_over solver_bench 'lock 1' lia_solver < "$work/source.rt"

# question, times, answer, and times under valgrind
ask() {
    taken=$(measure --text "$3" -- "$program" "$1" "$2") || exit 1
    count=$(measure --runs 1 --text "$3" --count -- "$program" "$1" "$4") || exit 1
    micros=$(echo "${taken%% *} $2" | awk '{ printf "%.1f", $1 * 1e6 / $2 }')
    each=$(echo "${count##* } $4" | awk '{ print ($1 == "-" ? "-" : sprintf("%d", $1 / $2)) }')
    printf '%-9s %7d %-6s %12s %14s\n' "$1" "$2" "$3" "$micros" "$each"
    hold solver "$1" any instructions "$each"
    hold solver "$1" any micros "$micros"
}

printf '%-9s %7s %-6s %12s %14s\n' question times answer 'micros each' instructions
ask lock 10000 point 100
ask counters 10000 point 100
ask random 1 limit 1
ask shadow 10 shadow 10
ask splits 1 limit 1
exit $missed
