//! Damaged house files through the linked port, each compared with the Rust, with canaries around every buffer; those still well formed as quotes too.

use oracle::random::Random;
use oracle::rule::Outcome;
use oracle::{damage, house, made, port, rule, work};
use std::collections::BTreeMap;

const HOW: &str = "oracle/fuzz [--seed S] [--count N] [--jobs J] [--keep FOLDER]
    damaged house files, each through the port and the Rust; exit status 1 where something is wrong
    --keep FOLDER   writes each file that shows something wrong there";

/// Bytes that stand before and after what is lent.
const GUARD: usize = 64;

/// A buffer between two guards, at any place of a word.
struct Lent {
    bytes: Vec<u8>,
    start: usize,
    len: usize,
}

fn guard(i: usize) -> u8 {
    (i as u8).wrapping_mul(0x9d) ^ 0xa5
}

impl Lent {
    fn new(shift: usize, content: impl ExactSizeIterator<Item = u8>) -> Self {
        let (start, len) = (GUARD + shift, content.len());
        let mut bytes: Vec<u8> = (0..start + len + GUARD).map(guard).collect();
        bytes[start..start + len].iter_mut().zip(content).for_each(|(b, c)| *b = c);
        Self { bytes, start, len }
    }

    fn room(shift: usize, len: usize) -> Self {
        Self::new(shift, (0..len).map(|i| guard(GUARD + shift + i)))
    }

    fn lent(&self) -> &[u8] {
        &self.bytes[self.start..self.start + self.len]
    }

    fn lent_mut(&mut self) -> &mut [u8] {
        &mut self.bytes[self.start..self.start + self.len]
    }

    /// Whether everything but the first `written` bytes of the buffer is as it was.
    fn untouched_but(&self, written: usize) -> bool {
        let written = self.start..self.start + written;
        self.bytes.iter().enumerate().all(|(i, b)| written.contains(&i) || *b == guard(i))
    }

    /// Whether the guards are as they were.
    fn guarded(&self) -> bool {
        self.untouched_but(self.len)
    }
}

/// What one file showed: the Rust's number, whether it was handed over as quotes too, the faces that its search tried, the rooms that the port was given,
/// and what was wrong.
struct Shown {
    number: u32,
    as_quotes: bool,
    faces: u64,
    rooms: Vec<usize>,
    wrong: Option<String>,
}

/// The port on `file` with room for `room` bytes, where `want` is the Rust's answer.
fn call(r: &mut Random, file: &[u8], room: usize, want: &[u8]) -> Option<String> {
    let input = Lent::new(r.below(8), file.iter().copied());
    let mut out = Lent::room(r.below(8), room);
    let size = kesupayro::raw::run(input.lent(), out.lent_mut());
    if input.lent() != file || !input.guarded() {
        return Some(format!("room {room}: the file was changed"));
    }
    if size != want.len() {
        return Some(format!("room {room}: size {size}, the Rust's answer has {}", want.len()));
    }
    let written = if size <= room { size } else { 0 };
    if !out.untouched_but(written) {
        return Some(format!("room {room}: written outside the answer"));
    }
    if written == 0 {
        return None;
    }
    match rule::compare(&out.lent()[..size], want) {
        Outcome::Same | Outcome::SameButZeros => None,
        Outcome::Different(d) => Some(format!("{}: {}", d.kind.words(), d.first)),
    }
}

/// The faces of an answer's search, 0 where there was none.
fn faces(text: &str) -> u64 {
    let search = text.lines().find_map(|l| l.strip_prefix("search "));
    search.and_then(|l| l.split(' ').nth(4)).and_then(|v| v.parse().ok()).unwrap_or(0)
}

/// Every room from nothing to two bytes more than enough where the port answers at once, and for one search in 64 that is not long;
/// else, since each call searches again, one that is enough and now and then a shorter one, of any size.
fn rooms(r: &mut Random, size: usize, faces: u64) -> Vec<usize> {
    let seldom = r.once_in(64);
    if faces * size as u64 <= 20_000 || (seldom && faces <= 3_200) {
        return (0..size + 3).collect();
    }
    let mut rooms = vec![size + r.one_of(&[0, 0, 1, 7, 100])];
    rooms.extend(r.once_in(8).then(|| r.below(size)));
    rooms
}

fn one(seed: u64, i: u64) -> (Vec<u8>, Shown) {
    let r = &mut Random::new(seed, i);
    let (base, other) = (house::write(&made::base(r)), house::write(&made::base(r)));
    let file = damage::damaged(r, &base, &other);
    let answer = house::answer(&file);
    let want = answer.text.as_bytes();
    let faces = faces(&answer.text);
    let rooms = rooms(r, want.len(), faces);
    let wrong = rooms.iter().find_map(|&room| call(r, &file, room, want));
    let of_quotes = || answer.told.as_ref().and_then(|told| port::quotes::difference(&file, told));
    let wrong = wrong.or_else(|| of_quotes().map(|d| format!("{}: {}", d.kind.words(), d.first)));
    let as_quotes = answer.told.is_some();
    (file, Shown { number: answer.number, as_quotes, faces, rooms, wrong })
}

fn main() {
    let stop = |e: String| -> ! { work::usage(&e, HOW) };
    let words = work::Words::read(&["seed", "count", "jobs", "keep"], &[]).unwrap_or_else(|e| stop(e));
    let seed = words.number("seed", 1).unwrap_or_else(|e| stop(e));
    let count = words.number("count", 10_000).unwrap_or_else(|e| stop(e)) as usize;
    let jobs = words.number("jobs", work::processors() as u64).unwrap_or_else(|e| stop(e)) as usize;
    if !words.rest.is_empty() {
        stop(format!("what is {}?", words.rest[0]));
    }
    if let Some(folder) = words.text("keep") {
        std::fs::create_dir_all(folder).unwrap_or_else(|e| stop(format!("{folder}: {e}")));
    }
    let mut by_number = BTreeMap::<u32, usize>::new();
    let (mut calls, mut quotes, mut wrong, mut every, mut searched) = (0, 0, 0, 0, 0);
    let mut tried = Vec::<usize>::new();
    let progress = work::Progress::new("files", count);
    work::each(count, jobs, |i| one(seed, i as u64), |i, (file, shown)| {
        *by_number.entry(shown.number).or_default() += 1;
        calls += shown.rooms.len();
        quotes += usize::from(shown.as_quotes);
        if shown.rooms[0] == 0 {
            every += 1;
            searched += usize::from(shown.faces > 0);
        }
        for room in shown.rooms {
            tried.resize(tried.len().max(room + 1), 0);
            tried[room] += 1;
        }
        if let Some(what) = shown.wrong {
            wrong += 1;
            progress.end();
            println!("seed {seed} file {i}: {what}");
            if let Some(folder) = words.text("keep") {
                let path = format!("{folder}/fuzz-{seed}-{i}.house");
                std::fs::write(&path, file).unwrap_or_else(|e| stop(format!("{path}: {e}")));
            }
        }
        progress.at(i + 1, &format!("{wrong} wrong"));
    });
    progress.end();
    let accepted = by_number.remove(&0).unwrap_or(0);
    let refused: Vec<String> = by_number.iter().map(|(n, c)| format!("{n}: {c}")).collect();
    println!("seed {seed}: {count} damaged files, {calls} calls of the port, {quotes} files as quotes too, in {:.0} s", progress.seconds());
    println!("every room from 0 to two more than enough: {every} files, {searched} of them after a search; each of the sizes 0 to {} at least once", tried.iter().take_while(|&&n| n > 0).count() - 1);
    println!("accepted {accepted}, refused {} ({})", count - accepted, refused.join(", "));
    println!("wrong {wrong}");
    std::process::exit(i32::from(wrong > 0));
}
