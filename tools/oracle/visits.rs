// How many edges the component walks take: by a walk of our own over the neighbour rule, and by the Rust's own walk with a count put in.

use crate::constants::{ALL14_MASK, EDGE_DELTAS};
use crate::counted;
use std::collections::{HashMap, VecDeque};
use std::sync::atomic::{AtomicUsize, Ordering::Relaxed};

static TAKEN: AtomicUsize = AtomicUsize::new(0);

/// Called by the Rust's walk (target/oracle/counted.rs) where it takes an edge from its frontier.
pub fn take() {
    TAKEN.fetch_add(1, Relaxed);
}

fn taken_by<T>(f: impl FnOnce() -> T) -> (usize, T) {
    TAKEN.store(0, Relaxed);
    let answer = f();
    (TAKEN.load(Relaxed), answer)
}

/// Two edges are neighbours if the difference of their deltas is a delta.
fn are_neighbours(e: usize, f: usize) -> bool {
    let apart: [i8; 3] = std::array::from_fn(|axis| EDGE_DELTAS[e][axis] - EDGE_DELTAS[f][axis]);
    EDGE_DELTAS.contains(&apart)
}

/// Breadth first from the lowest edge that no walk has met, until there is none: one for each edge taken from the queue.
fn our_walk(mask: u16) -> usize {
    let mut waiting: Vec<usize> = (0..14).filter(|e| mask >> e & 1 == 1).collect();
    let mut taken = 0;
    while !waiting.is_empty() {
        let mut queue = VecDeque::from([waiting.remove(0)]);
        while let Some(e) = queue.pop_front() {
            taken += 1;
            let (met, rest): (Vec<usize>, Vec<usize>) = waiting.into_iter().partition(|&f| are_neighbours(e, f));
            queue.extend(met);
            waiting = rest;
        }
    }
    taken
}

/// The edges that the walks over a mask take; ours, and the Rust's must be the same.
pub fn of_walk(mask: u16) -> usize {
    let ours = our_walk(mask);
    let (theirs, _) = taken_by(|| counted::connected_components_masks(mask));
    assert!(ours == theirs, "the walks over {mask:04x} take {theirs} edges, ours {ours}");
    ours
}

/// The edges that the walks of the topology test take, by the case that it answers: the first walk is made of a mask that is to be clustered and has
/// some of the fourteen edges and not all, the second where the first has found one surface. The Rust's test must take the same.
pub fn of_test(mask: u16, cluster: bool, case: usize, values: &HashMap<[i64; 3], f64>) -> usize {
    let m = mask & ALL14_MASK;
    let ours = match case {
        0 | 5 => 0,
        4 if m == 0 => 0,
        3 => our_walk(m),
        _ => our_walk(m) + our_walk(ALL14_MASK & !m),
    };
    let (theirs, _) = taken_by(|| counted::test_topology(mask, cluster, [0; 3], values));
    assert!(ours == theirs, "the topology test of {mask:04x} takes {theirs} edges, ours {ours}");
    ours
}
