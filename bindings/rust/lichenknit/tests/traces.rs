//! Traces without versions.

use lichenknit::{
    Access, AccessKind, Consistency, Error, Freedom, TraceVerdict, TraceWay, Witness, judge,
};

fn load(processor: u8, address: u64, word: u64) -> Access {
    Access::new(processor, address, AccessKind::Load(word))
}

fn store(processor: u8, address: u64, word: u64) -> Access {
    Access::new(processor, address, AccessKind::Store(word))
}

const ORDERED: TraceWay = TraceWay { timed: false, ordered: true, limit: 1_000_000 };

#[test]
fn a_coherent_trace_has_an_order() {
    let swap = Access::new(1, 8, AccessKind::Atomic { read: 5, wrote: 6 });
    let found = judge(&[store(0, 8, 5), load(1, 8, 5), swap], &[(8, 6)], ORDERED);
    let (freedom, consistency) = (Freedom::Forced, Consistency::Sequential);
    assert_eq!(found, Ok(TraceVerdict::Coherent { freedom, consistency, cycle: vec![] }));
}

#[test]
fn the_store_buffer_has_a_cycle() {
    let buffer = [store(0, 8, 1), load(0, 16, 0), store(1, 16, 1), load(1, 8, 0)];
    match judge(&buffer, &[], ORDERED) {
        Ok(TraceVerdict::Coherent { consistency: Consistency::Cycle, mut cycle, .. }) => {
            cycle.sort();
            assert_eq!(cycle, [0, 1, 2, 3]);
        }
        other => panic!("{other:?}"),
    }
}

#[test]
fn a_witness_names_operations() {
    let found = judge(&[store(0, 8, 5), load(1, 8, 6)], &[], TraceWay::default());
    let (address, witness) = (8, Witness::Unwritten);
    assert_eq!(found, Ok(TraceVerdict::NotCoherent { address, witness, places: vec![1] }));
}

#[test]
fn times_count_if_that_is_asked() {
    let put = Access { begin: Some(100), end: Some(110), ..store(0, 8, 5) };
    let late = Access { begin: Some(120), end: Some(125), ..load(1, 8, 0) };
    let timed = TraceWay { timed: true, ..TraceWay::default() };
    let is_coherent =
        |way| matches!(judge(&[put, late], &[], way), Ok(TraceVerdict::Coherent { .. }));
    assert!(is_coherent(TraceWay::default()));
    assert!(!is_coherent(timed));
}

#[test]
fn what_is_no_trace_is_refused() {
    assert_eq!(judge(&[load(16, 8, 0)], &[], ORDERED), Err(Error::OutOfRange));
    assert_eq!(judge(&[], &[(8, 1), (8, 2)], ORDERED), Err(Error::OutOfRange));
}
