//! House files from a seed, by class. Grids are small and passes few, so that a run of thousands ends.

use crate::damage;
use crate::house::{House, Record, Settings, write};
use crate::random::Random;

type Make = fn(&mut Random) -> Vec<u8>;

/// Each class with how often it comes: a file's name begins with its class.
pub const CLASSES: &[(&str, usize, Make)] = &[
    ("real", 10, real),
    ("default", 4, default_settings),
    ("exact", 6, exact),
    ("noise", 6, noise),
    ("weights", 6, weights),
    ("retries", 4, retries),
    ("second", 4, second),
    ("wings", 5, wings),
    ("flat", 4, flat),
    ("bounds", 8, bounds),
    ("lattice", 5, lattice),
    ("custom", 8, custom),
    ("extreme", 8, extreme),
    ("many", 1, many),
    ("damaged", 6, damaged),
    ("refusal01", 2, refusal01),
    ("refusal02", 1, refusal02),
    ("refusal03", 2, refusal03),
    ("refusal04", 1, refusal04),
    ("refusal05", 2, refusal05),
    ("refusal06", 2, refusal06),
    ("refusal07", 2, refusal07),
    ("refusal08", 2, refusal08),
    ("refusal09", 2, refusal09),
    ("refusal10", 2, refusal10),
    ("refusal11", 1, refusal11),
    ("refusal43", 2, refusal43),
    ("refusal44", 4, refusal44),
];

/// File `i` of a seed: its class and its bytes.
pub fn file(seed: u64, i: u64, only: Option<&str>) -> (&'static str, Vec<u8>) {
    let r = &mut Random::new(seed, i);
    let classes: Vec<_> = CLASSES.iter().filter(|c| only.is_none_or(|o| o == c.0)).collect();
    let mut at = r.below(classes.iter().map(|c| c.1).sum());
    for c in classes {
        if at < c.1 {
            return (c.0, c.2(r));
        }
        at -= c.1;
    }
    unreachable!("the shares sum up")
}

/// The class that a file's name begins with.
pub fn class_of(name: &str) -> &'static str {
    CLASSES.iter().map(|c| c.0).find(|c| name.strip_prefix(c).is_some_and(|rest| rest.starts_with('-'))).unwrap_or("other")
}

/// The true smile that data are made from.
struct Truth {
    tau: f64,
    a: f64,
    b: f64,
    rho: f64,
    m: f64,
    sigma: f64,
    width: f64,
}

impl Truth {
    fn new(r: &mut Random) -> Self {
        let tau = r.one_of(&[0.02, 0.08, 0.25, 0.5, 1.0, 2.0]) * r.between(0.7, 1.3);
        let vol = r.between(0.08, 0.9);
        let level = vol * vol * tau;
        let width = vol * tau.sqrt() * r.between(1.0, 4.0);
        let sigma = width * r.between(0.05, 1.0);
        Self {
            tau,
            a: level * r.between(0.2, 0.9),
            b: (level / sigma * r.between(0.05, 0.8)).min(0.9),
            rho: r.between(-0.95, 0.5),
            m: width * r.between(-0.3, 0.3),
            sigma,
            width,
        }
    }

    fn at(&self, k: f64) -> f64 {
        let x = k - self.m;
        self.a + self.b * (self.rho * x + (x * x + self.sigma * self.sigma).sqrt())
    }
}

/// Few cells: grid 5 to 9, a handful of passes; the other settings as they are by default.
fn small(r: &mut Random) -> Settings {
    Settings {
        grid: r.from_to(5, 9) as u64,
        refinements: r.from_to(0, 6) as u64,
        max_recentres: r.from_to(0, 6) as u64,
        ..Settings::defaults()
    }
}

/// `count` records of the smile, each w times 1 + noise, numbered from 1 on.
fn quotes(r: &mut Random, t: &Truth, count: usize, noise: f64) -> Vec<Record> {
    let mut out = Vec::new();
    for i in 0..count {
        let k = t.width * (2.0 * i as f64 / (count.max(2) - 1) as f64 - 1.0 + r.between(-0.2, 0.2) / count as f64);
        let w = (t.at(k) * (1.0 + noise * r.normal())).max(0.0);
        out.push(Record { number: i as u64 + 1, k, w, weight: r.between(1.0, 5.0) });
    }
    out
}

/// A number of its own for each of at most 256 records: from 0 and from the largest on, anywhere, or alike in all but a few bits.
fn number(r: &mut Random, records: &mut [Record]) {
    let (way, from) = (r.below(6), r.word());
    for (i, q) in (0_u64..).zip(records) {
        q.number = match way {
            0 => i + 1,
            1 => from.wrapping_add(i),
            2 if i % 2 == 0 => i / 2,
            2 => u64::MAX - i / 2,
            3 => i << 32,
            4 => i << 56,
            _ => from ^ (i << 31),
        };
    }
}

/// Copies of `times` records, each put anywhere: retries of numbered records, second quotes where each is numbered afterwards.
fn again(r: &mut Random, records: &mut Vec<Record>, times: usize) {
    for _ in 0..times {
        let q = records[r.below(records.len())];
        records.insert(r.below(records.len() + 1), q);
    }
}

fn house(settings: Option<Settings>, t: &Truth, records: Vec<Record>) -> House {
    House { settings, tau: t.tau, records }
}

/// A realistic slice: a smile with a little noise.
fn realistic(r: &mut Random) -> House {
    let t = Truth::new(r);
    let (n, noise) = (r.from_to(5, 30), r.decades(-4, -1));
    let records = quotes(r, &t, n, noise);
    let mut s = small(r);
    if r.once_in(2) {
        s.max_rmse_vol = r.between(0.05, 1.0);
    }
    house(Some(s), &t, records)
}

/// A realistic slice, to be damaged: one pass over the smallest grid, now and then a few. Its numbers are its own, so that records of two such files can stand in one.
pub fn base(r: &mut Random) -> House {
    let t = Truth::new(r);
    let n = r.from_to(5, 9);
    let mut records = quotes(r, &t, n, 0.01);
    let from = r.word();
    records.iter_mut().for_each(|q| q.number = q.number.wrapping_add(from));
    let more = r.once_in(16);
    let s = Settings {
        grid: if more { r.from_to(5, 6) as u64 } else { 5 },
        refinements: if more { r.below(3) as u64 } else { 0 },
        max_recentres: if more { r.below(2) as u64 } else { 0 },
        max_rmse_vol: 1.0,
        ..Settings::defaults()
    };
    house(Some(s), &t, records)
}

fn real(r: &mut Random) -> Vec<u8> {
    write(&realistic(r))
}

fn default_settings(r: &mut Random) -> Vec<u8> {
    let t = Truth::new(r);
    let (n, noise) = (r.from_to(5, 25), r.decades(-5, -1));
    let records = quotes(r, &t, n, noise);
    let settings = r.once_in(4).then(Settings::defaults);
    write(&house(settings, &t, records))
}

fn exact(r: &mut Random) -> Vec<u8> {
    let t = Truth::new(r);
    let n = r.from_to(5, 20);
    let mut records = quotes(r, &t, n, 0.0);
    records.iter_mut().for_each(|q| q.weight = 1.0);
    write(&house(Some(small(r)), &t, records))
}

fn noise(r: &mut Random) -> Vec<u8> {
    let t = Truth::new(r);
    let (n, noise) = (r.from_to(5, 40), r.between(0.1, 2.0));
    let records = quotes(r, &t, n, noise);
    let s = Settings { max_rmse_vol: r.decades(-2, 2), ..small(r) };
    write(&house(Some(s), &t, records))
}

fn weights(r: &mut Random) -> Vec<u8> {
    let mut h = realistic(r);
    let wide = r.one_of(&[3, 12, 40, 150, 300]);
    h.records.iter_mut().for_each(|q| q.weight = r.decades(-wide, wide));
    if r.once_in(3) {
        let w = r.decades(-3, 3);
        h.records.iter_mut().for_each(|q| q.weight = if r.once_in(3) { q.weight } else { w });
    }
    if let Some(s) = &mut h.settings {
        s.max_weight_ratio = if r.once_in(2) { 10.0 } else { r.decades(-wide / 2, wide / 2) };
        s.max_rmse_vol = 1.0;
    }
    write(&h)
}

/// Records sent again with their number: the first of each counts.
fn retries(r: &mut Random) -> Vec<u8> {
    let mut h = realistic(r);
    number(r, &mut h.records);
    let times = r.from_to(1, 20);
    again(r, &mut h.records, times);
    write(&h)
}

/// What a second dealer quotes too, now and then a bit or a zero's sign apart, each under a number of its own, beside retries: all but those count.
fn second(r: &mut Random) -> Vec<u8> {
    let mut h = realistic(r);
    let (seconds, sent) = (r.from_to(1, 12), r.below(8));
    again(r, &mut h.records, seconds);
    for q in &mut h.records {
        match r.below(40) {
            0 => q.k = r.near(q.k, 1),
            1 => q.w = r.near(q.w, 1),
            2 => q.weight = r.near(q.weight, 1),
            3 => q.k = r.one_of(&[0.0, -0.0]),
            4 => q.w = r.one_of(&[0.0, -0.0]),
            _ => {}
        }
    }
    number(r, &mut h.records);
    again(r, &mut h.records, sent);
    write(&h)
}

fn wings(r: &mut Random) -> Vec<u8> {
    let mut h = realistic(r);
    let (side, far) = (r.below(3), r.between(1.0, 30.0));
    for q in &mut h.records {
        let up = side == 0 || (side == 1 && r.once_in(2));
        let k = (q.k.abs() + 0.1) * far * if up { 1.0 } else { -1.0 };
        *q = Record { k, w: q.w + k.abs() * r.between(0.0, 0.4), ..*q };
    }
    write(&h)
}

fn flat(r: &mut Random) -> Vec<u8> {
    let mut h = realistic(r);
    let level = r.decades(-6, 1);
    let tilt = if r.once_in(2) { 0.0 } else { r.decades(-17, -3) };
    h.records.iter_mut().for_each(|q| q.w = level * (1.0 + tilt * r.normal()));
    write(&h)
}

/// Data that press on a constraint: steep, one-sided, bent downwards, at zero.
fn bounds(r: &mut Random) -> Vec<u8> {
    let mut h = realistic(r);
    let kind = r.below(6);
    let steep = r.between(0.5, 6.0);
    for q in &mut h.records {
        q.w = match kind {
            0 => steep * q.k.max(0.0) + 0.01,
            1 => steep * (-q.k).max(0.0) + 0.01,
            2 => steep * q.k.abs() + r.between(0.0, 1e-3),
            3 => (0.2 - q.k * q.k * steep).max(0.0),
            4 => steep * q.k * q.k,
            _ => if r.once_in(2) { r.one_of(&[0.0, -0.0]) } else { q.w },
        };
    }
    if let Some(s) = &mut h.settings {
        s.max_rmse_vol = 10.0;
        if r.once_in(2) {
            s.a_min = r.decades(-12, 1);
        }
    }
    write(&h)
}

/// Small whole numbers everywhere, so that pivots, objectives and faces tie; now and then sigma so large that the columns become equal.
fn lattice(r: &mut Random) -> Vec<u8> {
    let n = r.from_to(5, 9);
    let records = (0..n)
        .map(|i| Record {
            number: i as u64,
            k: r.from_to(0, 8) as f64 - 4.0,
            w: r.below(8) as f64 * 0.25,
            weight: r.one_of(&[1.0, 1.0, 2.0, 4.0]),
        })
        .collect();
    let mut s = Settings { max_rmse_vol: 10.0, ..small(r) };
    if r.once_in(2) {
        s.sigma_lo = r.one_of(&[0.5, 1.0, 4.0, 1e8, 1e9]);
        s.sigma_hi = s.sigma_lo * r.one_of(&[2.0, 16.0, 1024.0]);
    }
    if r.once_in(2) {
        s.pivot_tolerance = r.one_of(&[0.25, 0.5, 0.0625, 1e-300, 1e-17]);
        s.feasibility_tolerance = r.one_of(&[0.25, 0.5, 1e-300, 1e-3]);
    }
    write(&House { settings: Some(s), tau: r.one_of(&[0.25, 1.0, 4.0]), records })
}

fn custom(r: &mut Random) -> Vec<u8> {
    let mut h = realistic(r);
    let sigma_lo = r.decades(-4, 1);
    h.settings = Some(Settings {
        sigma_lo,
        sigma_hi: sigma_lo * r.decades(0, 4),
        a_min: r.decades(-12, -1),
        min_observations: r.from_to(5, 12) as u64,
        max_rmse_vol: r.decades(-3, 2),
        pivot_tolerance: r.decades(-20, 0),
        feasibility_tolerance: r.decades(-18, 0),
        max_weight_ratio: r.decades(-1, 3),
        ..small(r)
    });
    if r.once_in(40) {
        // A large grid, one pass.
        if let Some(s) = &mut h.settings {
            (s.grid, s.refinements, s.max_recentres) = (r.from_to(20, 60) as u64, r.below(2) as u64, 0);
        }
    }
    write(&h)
}

/// Numbers of every size, still well formed.
fn extreme(r: &mut Random) -> Vec<u8> {
    let mut h = realistic(r);
    let size = |r: &mut Random| loop {
        let x = match r.below(4) {
            0 => r.special(),
            1 => r.any_float(),
            2 => r.decades(-300, 300),
            _ => r.decades(-30, 30),
        };
        if x.is_finite() {
            return x;
        }
    };
    match r.below(5) {
        0 => {
            let by = r.decades(-305, 305);
            h.records.iter_mut().for_each(|q| q.k *= by);
        }
        1 => {
            let by = r.decades(-305, 305);
            h.records.iter_mut().for_each(|q| q.w *= by);
        }
        2 => h.tau = size(r).abs(),
        3 => {
            for q in &mut h.records {
                *q = Record { k: size(r), w: size(r).abs(), weight: size(r).abs().max(1e-320), ..*q };
            }
        }
        _ => {
            for _ in 0..r.from_to(1, 4) {
                let q = r.below(h.records.len());
                let q = &mut h.records[q];
                match r.below(3) {
                    0 => q.k = size(r),
                    1 => q.w = size(r).abs(),
                    _ => q.weight = size(r).abs().max(5e-324),
                }
            }
        }
    }
    // An infinity made by a product is check 10; leave a few.
    if !r.once_in(10) {
        for q in &mut h.records {
            q.k = q.k.clamp(-f64::MAX, f64::MAX);
            q.w = q.w.clamp(0.0, f64::MAX);
        }
    }
    if let Some(s) = &mut h.settings {
        if r.once_in(3) {
            s.sigma_hi = r.decades(0, 300);
            s.sigma_lo = s.sigma_hi / r.decades(0, 300);
        }
        if r.once_in(3) {
            s.a_min = size(r).abs().max(5e-324);
        }
        if r.once_in(3) {
            s.pivot_tolerance = size(r).abs().max(5e-324);
        }
        if r.once_in(3) {
            s.feasibility_tolerance = size(r).abs().max(5e-324);
        }
        if r.once_in(2) {
            s.max_rmse_vol = f64::MAX;
        }
    }
    write(&h)
}

fn many(r: &mut Random) -> Vec<u8> {
    let t = Truth::new(r);
    let n = if r.once_in(2) { 256 } else { r.from_to(200, 256) };
    let mut records = quotes(r, &t, n, 0.01);
    if r.once_in(2) {
        records.iter_mut().for_each(|q| q.weight = r.decades(-3, 3));
    }
    let s = Settings { grid: 5, refinements: 1, max_recentres: 1, max_rmse_vol: 1.0, ..small(r) };
    write(&house(Some(s), &t, records))
}

fn damaged(r: &mut Random) -> Vec<u8> {
    let (one, other) = (write(&base(r)), write(&base(r)));
    damage::damaged(r, &one, &other)
}

fn refusal01(r: &mut Random) -> Vec<u8> {
    let mut h = realistic(r);
    if let Some(s) = &mut h.settings {
        let bad = match r.below(4) {
            0 => 0.0,
            1 => -r.decades(-3, 3),
            2 => r.one_of(&[f64::NAN, f64::INFINITY, f64::NEG_INFINITY, -0.0, -f64::NAN]),
            _ => r.one_of(&[-5e-324, -f64::MAX]),
        };
        match r.below(10) {
            0 => s.grid = r.below(5) as u64,
            1 => s.min_observations = r.below(5) as u64,
            2 => s.sigma_lo = bad,
            3 => s.sigma_hi = bad,
            4 => s.a_min = bad,
            5 => s.max_rmse_vol = bad,
            6 => s.pivot_tolerance = bad,
            7 => s.feasibility_tolerance = bad,
            8 => s.max_weight_ratio = bad,
            _ => s.sigma_lo = s.sigma_hi * r.one_of(&[1.0, 1.0, 2.0]),
        }
    }
    if r.once_in(3) {
        h.tau = 0.0;
    }
    write(&h)
}

fn refusal02(r: &mut Random) -> Vec<u8> {
    let mut h = realistic(r);
    h.tau = r.one_of(&[0.0, -0.0, -1.0, f64::NAN, f64::INFINITY, f64::NEG_INFINITY, -5e-324]);
    if r.once_in(3) {
        h.records.clear();
    }
    write(&h)
}

fn refusal03(r: &mut Random) -> Vec<u8> {
    let mut h = realistic(r);
    match r.below(3) {
        0 => h.records.truncate(r.below(5)),
        1 => {
            if let Some(s) = &mut h.settings {
                s.min_observations = r.one_of(&[u64::MAX, 1 << 63, 1_000_000, 31, 257]);
            }
        }
        // Two quotes, again and again.
        _ => {
            let n = r.from_to(5, 20);
            h.records = (0..n).map(|_| h.records[usize::from(r.once_in(6))]).collect();
        }
    }
    write(&h)
}

fn refusal04(r: &mut Random) -> Vec<u8> {
    let mut h = realistic(r);
    let k = r.special();
    match r.below(3) {
        0 => h.records.iter_mut().for_each(|q| q.k = if k.is_finite() { k } else { 0.5 }),
        1 => h.records.iter_mut().for_each(|q| q.k = r.one_of(&[0.0, -0.0])),
        _ => (h.records[0].k, h.records[1].k) = (-f64::MAX, f64::MAX * r.between(0.5, 1.0)),
    }
    write(&h)
}

fn refusal05(r: &mut Random) -> Vec<u8> {
    let mut h = realistic(r);
    if r.once_in(2) {
        // The cap itself underflows.
        h.records.iter_mut().for_each(|q| q.weight = r.decades(-300, -290));
        if let Some(s) = &mut h.settings {
            s.max_weight_ratio = r.decades(-80, -20);
        }
    } else {
        h.records.iter_mut().for_each(|q| q.weight = if r.once_in(2) { r.decades(-320, -200) } else { r.decades(200, 308) });
        if let Some(s) = &mut h.settings {
            s.max_weight_ratio = r.decades(200, 308);
        }
    }
    h.records.iter_mut().for_each(|q| q.weight = q.weight.max(5e-324));
    write(&h)
}

fn refusal06(r: &mut Random) -> Vec<u8> {
    let mut h = realistic(r);
    let by = r.decades(140, 306);
    h.records.iter_mut().for_each(|q| q.w = r.between(0.1, 1.0) * by);
    if let Some(s) = &mut h.settings {
        if r.once_in(2) {
            s.pivot_tolerance = r.decades(-1, 2);
        }
        if r.once_in(2) {
            (s.sigma_lo, s.sigma_hi) = (r.decades(-30, -5), r.decades(5, 30));
        }
        if r.once_in(3) {
            s.a_min = r.decades(100, 300);
        }
    }
    write(&h)
}

fn refusal07(r: &mut Random) -> Vec<u8> {
    let mut h = realistic(r);
    if let Some(s) = &mut h.settings {
        (s.refinements, s.max_recentres) = (r.below(3) as u64, 0);
        if r.once_in(2) {
            (s.sigma_lo, s.sigma_hi) = (5.0, 6.0);
        }
    }
    write(&h)
}

fn refusal08(r: &mut Random) -> Vec<u8> {
    let mut h = realistic(r);
    if r.once_in(2) {
        let by = r.decades(-9, -6);
        h.records.iter_mut().for_each(|q| q.w *= by);
    } else {
        let by = r.decades(90, 200);
        h.records.iter_mut().for_each(|q| q.k *= by);
    }
    if let Some(s) = &mut h.settings {
        s.max_rmse_vol = 10.0;
        if r.once_in(2) {
            s.feasibility_tolerance = r.decades(-9, 0);
        }
    }
    write(&h)
}

fn refusal09(r: &mut Random) -> Vec<u8> {
    let mut h = realistic(r);
    if r.once_in(3) {
        h.tau = r.decades(-307, -300) * r.one_of(&[1.0, 1e-10, 1e-15]);
        if h.tau <= 0.0 {
            h.tau = 5e-324;
        }
    }
    if let Some(s) = &mut h.settings {
        s.max_rmse_vol = r.decades(-12, -3);
    }
    write(&h)
}

fn refusal10(r: &mut Random) -> Vec<u8> {
    let mut h = realistic(r);
    for _ in 0..r.from_to(1, 3) {
        let at = r.below(h.records.len());
        let (not_finite, negative) = (r.one_of(&[f64::NAN, f64::INFINITY, f64::NEG_INFINITY]), r.one_of(&[-1.0, -5e-324]));
        let q = &mut h.records[at];
        match r.below(6) {
            0 => q.k = not_finite,
            1 => q.w = not_finite,
            2 => q.w = negative,
            3 => q.weight = not_finite,
            4 => q.weight = negative,
            _ => q.weight = r.one_of(&[0.0, -0.0]),
        }
    }
    if r.once_in(3) {
        if let Some(s) = &mut h.settings {
            s.grid = r.below(5) as u64;
        }
        h.tau = -1.0;
    }
    write(&h)
}

fn refusal11(r: &mut Random) -> Vec<u8> {
    let mut h = realistic(r);
    if let Some(s) = &mut h.settings {
        let big = r.one_of(&[1001, 1002, 1 << 32, (1 << 32) + 7, 1 << 63, u64::MAX]);
        match r.below(3) {
            0 => s.grid = r.one_of(&[256, 257, big]),
            1 => s.refinements = big,
            _ => s.max_recentres = big,
        }
    }
    if r.once_in(3) {
        h.records[0].k = f64::NAN;
    }
    write(&h)
}

fn refusal43(r: &mut Random) -> Vec<u8> {
    let h = realistic(r);
    let mut f = write(&h);
    let count_at = 4 + 88 + 4 + 8;
    match r.below(7) {
        0 => f.truncate(r.below(f.len())),
        1 => f.extend((0..r.from_to(1, 40)).map(|_| 0)),
        2 => f[0] = r.from_to(2, 255) as u8,
        3 => f[92] = r.one_of(&[0, 2, 255]),
        4 => f[count_at] = f[count_at].wrapping_add(r.from_to(1, 255) as u8),
        5 => f[r.one_of(&[1, 2, 3, 93, 94, 95, count_at + 1, count_at + 2, count_at + 3])] = r.from_to(2, 255) as u8,
        _ => {
            let q = h.records[0];
            let records = (0..r.from_to(257, 300)).map(|_| q).collect();
            f = write(&House { records, ..h });
        }
    }
    f
}

/// x with one bit of its fraction changed: as finite as it was, and of the same sign.
fn bit_changed(r: &mut Random, x: f64) -> f64 {
    f64::from_bits(x.to_bits() ^ (1 << r.below(52)))
}

/// A record under the number of another, beside it or far away: one bit pattern differs, or all may.
fn clash(r: &mut Random, records: &mut Vec<Record>) {
    let i = r.below(records.len());
    let mut q = records[i];
    let zero = r.one_of(&[0.0, -0.0]);
    match r.below(7) {
        0 => q.k = bit_changed(r, q.k),
        1 => q.w = bit_changed(r, q.w),
        2 => q.weight = bit_changed(r, q.weight),
        3 => (records[i].k, q.k) = (zero, -zero),
        4 => (records[i].w, q.w) = (zero, -zero),
        5 => q.weight *= 2.0,
        _ => q = Record { number: q.number, ..records[r.below(records.len())] },
    }
    let at = r.below(records.len() + 1);
    records.insert(r.one_of(&[i, i + 1, 0, records.len(), at]), q);
}

/// Clashes beside retries and second quotes; now and then beside what comes before 44 (10 and 11) or after it (1, 2 and 3).
fn refusal44(r: &mut Random) -> Vec<u8> {
    let t = Truth::new(r);
    let n = r.one_of(&[1, 2, 5, 9, 9, 20, 200]);
    let mut records = quotes(r, &t, n, 0.01);
    let (seconds, sent) = (r.below(6), r.below(6));
    again(r, &mut records, seconds);
    number(r, &mut records);
    again(r, &mut records, sent);
    for _ in 0..r.one_of(&[1, 1, 1, 2, 5]) {
        clash(r, &mut records);
    }
    let (mut s, mut tau) = (small(r), t.tau);
    match r.below(12) {
        0 => s.grid = r.below(5) as u64,
        1 => tau = r.one_of(&[0.0, -1.0, f64::NAN]),
        2 => s.min_observations = u64::MAX,
        3 => {
            let at = r.below(records.len());
            records[at].w = r.one_of(&[f64::NAN, f64::INFINITY, -1.0]);
        }
        4 => s.max_recentres = r.one_of(&[1001, u64::MAX]),
        _ => {}
    }
    write(&House { settings: Some(s), tau, records })
}
