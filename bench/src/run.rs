//! Runs of a script by stations.

use crate::memory::{Logs, Op};
use crate::station::{Round, Station, Table, gather};
use crate::text::Script;
use std::sync::atomic::{AtomicUsize, Ordering::SeqCst};
use std::thread;

/// After this many rounds in a row without an entry a thread yields.
const RESTLESS_ROUNDS: u32 = 16;

/// The operations of each node.
fn by_node(script: &Script) -> Vec<Vec<Op>> {
    let mut each = vec![Vec::new(); script.size.nodes];
    for (node, op) in &script.operations {
        each[usize::from(*node)].push(*op);
    }
    each
}

fn stations<'a>(table: &'a Table, script: &Script) -> Vec<Station<'a>> {
    let each = by_node(script).into_iter().enumerate();
    each.map(|(me, own)| Station::new(table, me, own)).collect()
}

/// Runs a script with one thread a node, each for at most this many turns. Whether all have finished comes second.
pub fn threads(script: &Script, turns: u32) -> (Logs, bool) {
    let table = Table::new(script.size);
    let mut stations = stations(&table, script);
    let done = AtomicUsize::new(0);
    let nodes = stations.len();
    let finished = thread::scope(|scope| {
        let handles: Vec<_> = stations
            .iter_mut()
            .map(|station| scope.spawn(|| drive(station, &done, nodes, turns)))
            .collect();
        handles.into_iter().all(|it| it.join().unwrap_or(false))
    });
    (gather(stations), finished)
}

fn drive(station: &mut Station, done: &AtomicUsize, nodes: usize, turns: u32) -> bool {
    let mut restless = 0;
    let mut was_done = false;
    for _ in 0..turns {
        let Round { answered, moved } = station.round();
        if station.is_answered() {
            if !was_done {
                was_done = true;
                done.fetch_add(1, SeqCst);
            }
            if done.load(SeqCst) == nodes {
                return true;
            }
        }
        restless = if answered { 0 } else { restless + 1 };
        if (!answered && !moved) || restless >= RESTLESS_ROUNDS {
            thread::yield_now();
            restless = 0;
        }
    }
    false
}

/// Runs a script with all stations in this thread, a round each in a circle, and returns the number of rounds.
pub fn circle(stations: &mut [Station]) -> u32 {
    for round in 1.. {
        let mut all = true;
        for station in &mut *stations {
            station.round();
            all &= station.is_answered();
        }
        if all {
            return round;
        }
    }
    unreachable!()
}

/// Runs a script in a circle this many times, and says how long each run took.
pub fn timed_circles(script: &Script, times: u32) {
    for _ in 0..times {
        let table = Table::new(script.size);
        let mut stations = stations(&table, script);
        let start = processor_time();
        let rounds = circle(&mut stations);
        let time = processor_time() - start;
        let count = script.operations.len();
        println!("{count} operations in {rounds} rounds, {time} ns");
    }
}

/// The processor time of this process, in nanoseconds. The standard library has no call for it.
fn processor_time() -> i64 {
    #[repr(C)]
    struct Timespec {
        seconds: i64,
        nanoseconds: i64,
    }
    unsafe extern "C" {
        fn clock_gettime(clock: i32, time: *mut Timespec) -> i32;
    }
    const PROCESS_CPUTIME: i32 = 2;
    let mut time = Timespec { seconds: 0, nanoseconds: 0 };
    // SAFETY: `time` is a timespec of 64-bit Linux, and lives through the call.
    unsafe { clock_gettime(PROCESS_CPUTIME, &mut time) };
    time.seconds * 1_000_000_000 + time.nanoseconds
}
