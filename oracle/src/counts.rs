//! The six counts of a search. The counted copy of the Rust calls these; each thread counts for itself.

use std::cell::Cell;

/// passes, recentres, shrinks, cells, faces, updates
pub type Counts = [u64; 6];

thread_local! {
    static COUNTS: Cell<Counts> = const { Cell::new([0; 6]) };
}

fn add(at: usize) {
    COUNTS.with(|c| {
        let mut now = c.get();
        now[at] += 1;
        c.set(now);
    });
}

pub fn pass() {
    add(0);
}

pub fn recentre() {
    add(1);
}

pub fn shrink() {
    add(2);
}

pub fn cell() {
    add(3);
}

pub fn face() {
    add(4);
}

/// One entry of a matrix, updated by the elimination.
pub fn update() {
    add(5);
}

/// The counts since they were last taken.
pub fn take() -> Counts {
    COUNTS.with(|c| c.replace([0; 6]))
}
