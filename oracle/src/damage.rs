//! House files damaged from a seed.

use crate::house;
use crate::random::Random;

/// `one` with a few things done to it: bits flipped, records cut, swapped and repeated, under their number or another, a number given twice, counts replaced,
/// special floats written anywhere, a piece of `other` joined on.
pub fn damaged(r: &mut Random, one: &[u8], other: &[u8]) -> Vec<u8> {
    let mut f = one.to_vec();
    for _ in 0..r.one_of(&[1, 1, 1, 2, 2, 3, 5]) {
        once(r, &mut f, other);
    }
    bounded(&mut f);
    f
}

const RECORD: usize = 32;

/// Where the records start, if the file says so itself.
fn records_at(f: &[u8]) -> usize {
    if f.first() == Some(&1) { 108 } else { 20 }
}

fn once(r: &mut Random, f: &mut Vec<u8>, other: &[u8]) {
    let start = records_at(f);
    let count = f.len().saturating_sub(start) / RECORD;
    let say = |f: &mut Vec<u8>, n: usize| {
        if let Some(c) = f.get_mut(start - 4..start) {
            c.copy_from_slice(&(n as u32).to_le_bytes());
        }
    };
    let at = |r: &mut Random| start + RECORD * r.below(count.max(1));
    match r.below(14) {
        // Bits.
        0 | 1 => {
            for _ in 0..r.one_of(&[1, 1, 2, 8, 64]) {
                if !f.is_empty() {
                    let i = r.below(f.len());
                    f[i] ^= 1 << r.below(8);
                }
            }
        }
        // A special float, on a value's place or anywhere.
        2 | 3 | 4 => {
            for _ in 0..r.one_of(&[1, 1, 1, 2, 4]) {
                let x = if r.once_in(3) { r.any_float() } else { r.special() };
                let i = match r.below(4) {
                    0 => r.below(f.len() + 1),
                    1 => 4 + 8 * r.below(11),
                    _ => at(r) + 8 * r.below(4),
                };
                if let Some(p) = f.get_mut(i..i + 8) {
                    p.copy_from_slice(&x.to_bits().to_le_bytes());
                }
            }
        }
        // A count.
        5 => {
            let i = r.one_of(&[0, start - 16, start - 4]);
            let n = r.one_of(&[0, 1, 2, 3, 255, 256, 257, 1 << 16, 1 << 31, u32::MAX]);
            if let Some(p) = f.get_mut(i..i + 4) {
                p.copy_from_slice(&n.to_le_bytes());
            }
        }
        // A record less; the count says so or not.
        6 => {
            if count > 0 {
                let i = at(r);
                f.drain(i..i + RECORD);
                if !r.once_in(4) {
                    say(f, count - 1);
                }
            }
        }
        // A record again, here or there, many times.
        7 => {
            if count > 0 {
                let i = at(r);
                let record = f[i..i + RECORD].to_vec();
                let times = r.one_of(&[1, 1, 2, 10, 256 - count.min(256), 257 - count.min(257)]);
                for _ in 0..times {
                    let n = f.len().saturating_sub(start) / RECORD;
                    let i = start + RECORD * r.below(n + 1);
                    f.splice(i..i, record.iter().copied());
                }
                if !r.once_in(4) {
                    say(f, count + times);
                }
            }
        }
        // Two records, or two values, change places.
        8 => {
            if count > 1 {
                let (i, j) = (at(r), at(r));
                let (len, off) = if r.once_in(2) { (RECORD, 0) } else { (8, 8 * r.below(4)) };
                for n in 0..len {
                    f.swap(i + off + n, j + off + n);
                }
            }
        }
        // Cut short, or something more.
        9 => {
            if r.once_in(2) {
                f.truncate(r.below(f.len() + 1));
            } else {
                for _ in 0..r.from_to(1, 40) {
                    let b = r.word() as u8;
                    f.push(b);
                }
            }
        }
        // Joined with the other file, or with its records.
        10 => {
            if r.once_in(3) {
                f.extend_from_slice(other);
            } else {
                let from = records_at(other).min(other.len());
                let more = (other.len() - from) / RECORD;
                f.truncate(start + RECORD * count);
                f.extend_from_slice(&other[from..]);
                say(f, count + more);
            }
        }
        // A record's number on another: a clash, also where k, or k and w, come with it; where all do, a retry.
        11 => {
            if count > 1 {
                let (i, j) = (at(r), at(r));
                let len = r.one_of(&[8, 8, 16, 24, RECORD]);
                f.copy_within(i..i + len, j);
            }
        }
        // A record again under another number: a second quote.
        12 => {
            if count > 0 {
                let (i, any) = (at(r), r.word());
                let mut record = f[i..i + RECORD].to_vec();
                record[..8].copy_from_slice(&r.one_of(&[0, u64::MAX, any, any]).to_le_bytes());
                let to = start + RECORD * r.below(count + 1);
                f.splice(to..to, record);
                say(f, count + 1);
            }
        }
        // The settings left out (seldom: the defaults search long), or a whole number in them replaced.
        _ => {
            if f.first() == Some(&1) && f.len() >= 92 && r.once_in(200) {
                f.drain(4..92);
                f[0] = 0;
            } else if let Some(p) = f.get_mut(4 + 8 * r.one_of(&[0, 1, 2, 6])..).and_then(|p| p.get_mut(..8)) {
                let n = r.one_of(&[0_u64, 1, 4, 5, 6, 7, 255, 256, 1000, 1001, 1 << 32, u64::MAX]);
                p.copy_from_slice(&n.to_le_bytes());
            }
        }
    }
}

/// Keeps a well-formed file's search short: fewer passes, a smaller grid. Sizes that are refused stay.
fn bounded(f: &mut [u8]) {
    let Some(h) = house::read(f) else { return };
    let Some(mut s) = h.settings else { return };
    if s.grid > 255 || s.refinements > 1000 || s.max_recentres > 1000 || s.grid < 5 {
        return;
    }
    let passes = |s: &house::Settings| s.refinements + 2 * s.max_recentres + 1;
    if s.grid * s.grid * passes(&s) > 150 {
        s.refinements = s.refinements.min(1);
        s.max_recentres = 0;
        s.grid = s.grid.min(5 + s.grid % 3);
    }
    for (i, v) in s.words().iter().enumerate().take(3) {
        f[4 + 8 * i..12 + 8 * i].copy_from_slice(&v.to_le_bytes());
    }
}
