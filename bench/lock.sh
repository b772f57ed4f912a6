#!/bin/sh
# The lock: the nanoseconds of one `hold` with its `free` by 1, 2 and 4 threads that do nothing else, and beside it those of
# a lock and unlock of the kit's `std::sync::Mutex`, and of plain Rust's where rustc is there. Each pair adds 1 to a number
# under the lock. The time is that of the whole run, divided by the pairs of all threads: the least of five runs.
# The program is built, proved, in a copy of the crates that it needs. It fails where the number isn't that of the pairs, and
# where a limit of bench/limits.tsv is missed.
# usage: bench/lock.sh [DIRECTORY]   (where the copy is made or found; a temporary one, if none is given)
. "$(dirname "$0")/common.sh"
work_in "$@"

source_of() {
    cat << 'PROGRAM'
//! Holds and frees a lock again and again.
#![tactic(auto)]

ghost use Rattle.std.specs.Prelude.{◌≡◌, [], true, false};

use board_lock::{BoardLock, Chronicle, Seat};
use std::alloc::Global;
use std::process::ExitCode;
use std::rt::Clock;
use std::sync::{Mutex, Wait};
use std::thread;
use std::thread::Threads;
use std::time::Instant;

/// A number, and no history.
#[derive(Drop)]
struct Sum {
    sum: u64,
}

impl Chronicle for Sum {
    type Program = bool;
    type Event = bool;

    ghost program = { λ _. true };

    ghost events = { λ _. [] };

    fn count(&self) -> u64 {
        0
    }
}

/// What a thread does again and again, and the number that is there at the end.
trait Turns: Drop {
    fn pair<R: Wait>(&mut self, rt: &R);

    fn sum<R: Wait>(&mut self, rt: &R) -> u64;

    fn another(&mut self) -> Self;
}

/// A lock with a seat of it that doesn't hold.
#[derive(Drop)]
struct Desk<'a> {
    lock: &'a BoardLock<Sum>,
    seat: Seat<Sum>,
    ghost well_formed: { (seat.lock ≡ lock.now) × (seat.view.turn ≡ false) },
}

impl<'a> Turns for Desk<'a> {
    fn pair<R: Wait>(&mut self, rt: &R) {
        let mut sum = self.lock.hold(rt, &mut self.seat);
        sum.sum = sum.sum.wrapping_add(1);
        self.lock.free(&mut self.seat, sum);
    }

    fn sum<R: Wait>(&mut self, rt: &R) -> u64 {
        let sum = self.lock.hold(rt, &mut self.seat);
        let number = sum.sum;
        self.lock.free(&mut self.seat, sum);
        number
    }

    fn another(&mut self) -> Desk<'a> {
        let seat = self.lock.split(&mut self.seat);
        Desk {
            lock: self.lock,
            seat,
        }
    }
}

#[derive(Drop)]
struct Plain<'a> {
    mutex: &'a Mutex<u64>,
}

impl<'a> Turns for Plain<'a> {
    fn pair<R: Wait>(&mut self, rt: &R) {
        let mut sum = self.mutex.lock(rt);
        *sum = sum.wrapping_add(1);
    }

    fn sum<R: Wait>(&mut self, rt: &R) -> u64 {
        *self.mutex.lock(rt)
    }

    fn another(&mut self) -> Plain<'a> {
        Plain { mutex: self.mutex }
    }
}

fn pairs<P: Turns, R: Wait>(rt: &R, mine: &mut P, many: u64) {
    for _ in 0..many {
        mine.pair(rt);
    }
}

/// The number at the end, and the nanoseconds of so many pairs by each of so many threads.
fn timed<P: Turns + Send, R: Threads + Wait + Sync + Clock + Alloc<A = Global>>(
    rt: &R,
    mut first: P,
    threads: usize,
    many: u64,
) -> Option<(u64, u128)> {
    if threads == 0 {
        return None;
    }
    let mut all = Vec::new(rt.alloc());
    for _ in 0..threads {
        all.push(first.another()).ok()?;
    }
    let start = Instant::now(rt).ok()?;
    thread::for_each_mut(rt, all.as_mut_slice(), threads, &|_, mine| pairs(rt, mine, many));
    let time = start.elapsed(rt).ok()?;
    Some((first.sum(rt), time.as_nanos()))
}

fn measured<R: Threads + Wait + Sync + Clock + Alloc<A = Global>>(
    rt: &R,
    is_lock: bool,
    threads: usize,
    many: u64,
) -> Option<(u64, u128)> {
    if is_lock {
        let (lock, seat) = BoardLock::new(rt.alloc(), Sum { sum: 0 }).ok()?;
        let desk = Desk { lock: &lock, seat };
        return timed(rt, desk, threads, many);
    }
    let mutex = Mutex::new(0);
    timed(rt, Plain { mutex: &mutex }, threads, many)
}

fn main(rt: HostRuntime) -> ExitCode {
    let mut is_lock = true;
    let mut threads = 1;
    let mut many = 1;
    if let Ok(words) = std::env::args(&rt) {
        for (place, word) in words.enumerate() {
            match place {
                1 => is_lock = word.as_str() == "lock",
                2 => threads = word.parse().unwrap_or(1),
                3 => many = word.parse().unwrap_or(1),
                _ => {}
            }
        }
    }
    let Some((sum, nanos)) = measured(&rt, is_lock, threads, many) else {
        return ExitCode::from(1);
    };
    let _ = println!(rt; "{sum} {nanos}");
    ExitCode::from(0)
}
PROGRAM
}

source_of > "$work/source.rt"
build_over lock_bench 'lock 1 1' board_lock < "$work/source.rt"

# plain Rust's mutex, in the same way, where rustc is there
plain=
if command -v rustc > /dev/null; then
    plain=$work/plain
    cat > "$work/plain.rs" << 'PROGRAM'
use std::sync::Mutex;
use std::time::Instant;

fn main() {
    let words: Vec<u64> = std::env::args().skip(2).map(|word| word.parse().unwrap()).collect();
    let (threads, many) = (words[0], words[1]);
    let mutex = Mutex::new(0u64);
    let start = Instant::now();
    std::thread::scope(|scope| {
        for _ in 0..threads {
            scope.spawn(|| {
                for _ in 0..many {
                    let mut sum = mutex.lock().unwrap();
                    *sum = sum.wrapping_add(1);
                }
            });
        }
    });
    let time = start.elapsed();
    println!("{} {}", mutex.lock().unwrap(), time.as_nanos());
}
PROGRAM
    rustc -C opt-level=3 -o "$plain" "$work/plain.rs" || exit 70
fi

# The nanoseconds of a pair: a program, the kind of lock, threads, pairs of each thread; or an end where a pair was lost.
pair() {
    pairs=$(($3 * $4))
    for run in 1 2 3 4 5; do
        "$1" "$2" "$3" "$4"
    done | awk -v pairs="$pairs" '
        $1 != pairs { lost = 1 }
        NR == 1 || $2 < least { least = $2 }
        END { if (NR != 5 || lost) exit 1; printf "%.1f", least / pairs }' || { echo "$2 $3: a pair was lost" >&2; exit 1; }
}

printf '%-8s %10s %10s %10s\n' threads lock mutex "Rust's"
for threads in 1 2 4; do
    many=$((1000000 / threads))
    lock=$(pair "$program" lock "$threads" "$many") || exit 1
    mutex=$(pair "$program" mutex "$threads" "$many") || exit 1
    rust=-
    [ -z "$plain" ] || rust=$(pair "$plain" mutex "$threads" "$many") || exit 1
    printf '%-8s %10s %10s %10s\n' "$threads" "$lock" "$mutex" "$rust"
    hold lock "$threads" any nanos "$lock"
done
exit $missed
