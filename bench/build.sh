#!/bin/sh
# The graphs of sources of 8, 16, 32 and 64 KiB: bytes, statement and expression nodes of the program, nodes and edges of
# its graphs, how many of each there are for a syntax node, and the time of one `build`, whose graphs are then dropped (the
# least of five runs of many); where valgrind is there, also its instructions, the average of 20, and how many of them,
# without the C library's, there are for a syntax node.
# The program that builds them is built, proved, in a copy of the crates that it needs. It fails where a run does anything
# else, and where a limit of bench/limits.tsv is missed.
# usage: bench/build.sh [DIRECTORY]   (where the copy is made or found; a temporary one, if none is given)
. "$(dirname "$0")/common.sh"
work_in "$@"

source_of() {
    cat << 'PROGRAM'
//! Builds the graphs of a source again and again.
#![tactic(auto)]

ghost use Rattle.std.specs.Prelude.{◌≤◌, length};

use c_lexer::lex;
use c_parser::parse::parse;
use c_tree::tree::{Expr, Program, Stmt};
use c_typing::check_types;
use flow_build::build::build;
use flow_graph::graphs::Graphs;
use outer_io::{FromReader, read_all};
use std::alloc::Global;
use std::process::ExitCode;
use std::time::Instant;

#[cycle(expression)]
fn nodes(e: &Expr) -> u64 {
    match e {
        Expr::Literal(_) | Expr::Read(_) | Expr::Input => 1,
        Expr::Call(_, arguments) => nodes_all(arguments).saturating_add(1),
        Expr::Negate(a) | Expr::Not(a) => nodes(a).saturating_add(1),
        Expr::Binary(_, a, b) => nodes(a).saturating_add(nodes(b)).saturating_add(1),
    }
}

#[cycle(expression)]
fn nodes_all(arguments: &[Expr]) -> u64 {
    let mut sum: u64 = 0;
    for e in arguments {
        sum = sum.saturating_add(nodes(e));
    }
    sum
}

#[cycle(statement)]
fn statement_nodes(s: &Stmt) -> u64 {
    let below = match s {
        Stmt::Block(body) => statements_nodes(body),
        Stmt::Set(_, e) | Stmt::Ignore(e) | Stmt::Assume(e) | Stmt::Assert(_, e) => nodes(e),
        Stmt::If(test, a, b) => nodes(test)
            .saturating_add(statement_nodes(a))
            .saturating_add(statement_nodes(b)),
        Stmt::Loop { test, step, body } => nodes(test)
            .saturating_add(statement_nodes(step))
            .saturating_add(statement_nodes(body)),
        Stmt::DoWhile(body, test) => statement_nodes(body).saturating_add(nodes(test)),
        Stmt::Break | Stmt::Continue => 0,
        Stmt::Return(Some(e)) => nodes(e),
        Stmt::Return(None) => 0,
    };
    below.saturating_add(1)
}

#[cycle(statement)]
fn statements_nodes(body: &[Stmt]) -> u64 {
    let mut sum: u64 = 0;
    for s in body {
        sum = sum.saturating_add(statement_nodes(s));
    }
    sum
}

fn syntax_nodes(program: &Program) -> u64 {
    let mut sum: u64 = 0;
    for procedure in &program.procedures {
        sum = sum.saturating_add(statements_nodes(&procedure.body));
    }
    sum
}

/// The nodes and the edges of the graphs.
fn sizes(graphs: &Graphs) -> (u64, u64) {
    let mut nodes: u64 = 0;
    let mut edges: u64 = 0;
    for graph in graphs.graphs.as_slice() {
        nodes = nodes.saturating_add(u64::from(graph.nodes));
        edges = edges.saturating_add(graph.edges.as_slice().len() as u64);
    }
    (nodes, edges)
}

fn program_of(alloc: Global, bytes: &[u8]) -> Option<Program>
    requires { length bytes.now ≤ 65536 }
{
    let tokens = lex(alloc, bytes).ok()?;
    let tree = parse(alloc, bytes, &tokens).ok()?;
    check_types(alloc, &tree).ok()
}

/// The graphs, and the nanoseconds of `count` times that they are built after a first time.
fn timed(rt: &HostRuntime, program: &Program, count: u64) -> Option<(Graphs, u128)> {
    let mut graphs = build(rt.alloc(), program).ok()?;
    let start = Instant::now(rt).ok()?;
    for _ in 0..count {
        graphs = build(rt.alloc(), program).ok()?;
    }
    let time = start.elapsed(rt).ok()?;
    Some((graphs, time.as_nanos()))
}

fn measured(rt: &HostRuntime, count: u64) -> Option<()> {
    let mut source = FromReader::new(rt.stdin());
    let bytes = read_all(rt.alloc(), &mut source, 65_536).ok()?;
    let program = program_of(rt.alloc(), &bytes)?;
    let syntax = syntax_nodes(&program);
    let (graphs, nanos) = timed(rt, &program, count)?;
    let (nodes, edges) = sizes(&graphs);
    println!(rt; "{} {syntax} {nodes} {edges} {nanos}", bytes.len()).ok()
}

fn main(rt: HostRuntime) -> ExitCode {
    let mut count = 0;
    if let Ok(words) = std::env::args(&rt) {
        for word in words.skip(1) {
            count = word.parse().unwrap_or(0);
        }
    }
    match measured(&rt, count) {
        Some(_) => ExitCode::from(0),
        None => ExitCode::from(1),
    }
}
PROGRAM
}

source_of > "$work/source.rt"
build_over build_bench 1 outer_io flow_build c_lexer c_parser c_typing < "$work/source.rt"

# bytes, syntax nodes, nodes, edges and nanoseconds of so many builds
numbers='[0-9]+ [0-9]+ [0-9]+ [0-9]+ [0-9]+'

# all instructions of a run of so many builds, and those of them that are the program's own
instructions() {
    measure --runs 1 --text "$numbers" --input "$work/source.c" --count --own build_bench -- "$program" "$1" | cut -d ' ' -f 3,4
}

# the nanoseconds of each of five runs of so many builds
nanos() {
    for run in 1 2 3 4 5; do
        "$program" "$1" < "$work/source.c" | cut -d ' ' -f 5
    done
}

printf '%-6s %6s %7s %7s %7s %6s %6s %12s %13s %9s\n' shape bytes syntax nodes edges nodes/ edges/ 'micros each' instructions own/
for shape in deep chain many long; do
    for size in 8192 16384 32768 65536; do
        awk -v shape="$shape" -v size="$size" -v last=0 -f "$top/bench/source.awk" > "$work/source.c"
        count=$((13107200 / size))
        text=$("$program" 0 < "$work/source.c") || { echo "$shape $size: no graphs" >&2; exit 1; }
        least=$(nanos "$count" | sort -n | head -n 1)
        none=$(instructions 0) && twenty=$(instructions 20) || exit 1
        line=$(echo "$text $count $least $none $twenty" | awk '{
            printf "%6d %7d %7d %7d %6.2f %6.2f %12.1f", $1, $2, $3, $4, $3 / $2, $4 / $2, $7 / 1000 / $6
            if ($8 != "-") printf " %13d %9.1f", ($10 - $8) / 20, ($11 - $9) / 20 / $2
        }')
        printf '%-6s %s\n' "$shape" "$line"
        set -- $line
        hold build "$shape" "$size" instructions "${8:--}"
        hold build "$shape" "$size" own "${9:--}"
    done
done
exit $missed
