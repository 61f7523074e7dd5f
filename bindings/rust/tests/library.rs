//! The library through the safe functions: good and bad input.

use kesupayro::{abi, answer, c, fit, raw, Counts, FitConfig, Quote, Refused, ABI, MOST_QUOTES};

/// Nine quotes off a smile.
fn smile() -> Vec<Quote> {
    (0..9u64)
        .map(|i| {
            let k = -0.3 + 0.075 * i as f64;
            let w = 0.01 + 0.1 * (-0.3 * k + k.hypot(0.15)) + 1e-5 * (i % 3) as f64;
            Quote { number: 300 + i, k, w, weight: 1.0 }
        })
        .collect()
}

#[test]
fn nine_copies_change_nothing_but_the_count() {
    let once = smile();
    let mut nine = once.clone();
    nine.extend([once[4]; 8]);
    let (a, b) = (fit(0.5, None, &once).unwrap(), fit(0.5, None, &nine).unwrap());
    assert_eq!((a.read, a.kept, b.read, b.kept), (9, 9, 17, 9));
    assert_eq!((a.slice, &a.points, a.counts), (b.slice, &b.points, b.counts));
}

/// The fit of quotes of which all count, and the fit of their columns, say the same.
fn all_count(quotes: &[Quote]) {
    let n = quotes.len();
    let column = |f: fn(&Quote) -> f64| quotes.iter().map(f).collect::<Vec<_>>();
    let (k, w, weight) = (column(|q| q.k), column(|q| q.w), column(|q| q.weight));
    let (mut residuals, mut capped) = (vec![f64::NAN; 4 * n + 4], vec![99; n]);
    let raw = raw::fit_slice(0.5, FitConfig::default(), &k, &w, &weight, &mut residuals, &mut capped);
    let read = fit(0.5, None, quotes).unwrap();
    assert_eq!((raw.number, read.read, read.kept), (0, n, n));
    assert_eq!((raw.slice, raw.counts, raw.active), (read.slice, read.counts, read.active));
    assert_eq!(
        [raw.objective, raw.objective_params, raw.lee_margin, raw.a_margin, raw.rmse_vol],
        [read.objective, read.objective_params, read.lee_margin, read.a_margin, read.rmse_vol]
    );
    let rows: Vec<f64> = read.points.iter().flat_map(|p| [p.k, p.w, p.fitted, p.residual]).collect();
    assert_eq!(residuals[..4 * n], rows[..]);
    assert!(residuals[4 * n..].iter().all(|x| x.is_nan()) && capped == vec![99; n]);
}

#[test]
fn fit_and_fit_slice_agree() {
    all_count(&smile());
}

#[test]
fn what_two_dealers_quote_alike_counts_twice() {
    let mut quotes = smile();
    quotes.extend([Quote { number: 0, ..quotes[4] }, Quote { number: u64::MAX, ..quotes[4] }, Quote { number: 304 + (1 << 32), ..quotes[4] }]);
    all_count(&quotes);
    let retried = [&quotes[..], &quotes[9..]].concat();
    let (once, again) = (fit(0.5, None, &quotes).unwrap(), fit(0.5, None, &retried).unwrap());
    assert_eq!((again.read, again.kept, again.slice, again.points), (15, 12, once.slice, once.points));
}

#[test]
fn one_number_with_two_contents_is_heard() {
    let changes: [fn(&mut Quote); 4] =
        [|q| q.k = f64::from_bits(q.k.to_bits() ^ 1), |q| q.w = f64::from_bits(q.w.to_bits() ^ 1), |q| q.weight = 2.0, |q| q.weight = 5e-324];
    for (change, number) in changes.into_iter().zip([0, 304, 1 << 32, u64::MAX]) {
        let mut quotes = smile();
        quotes[4].number = number;
        let mut other = quotes[4];
        change(&mut other);
        for at in [0, 4, 5, 9] {
            let mut sent = quotes.clone();
            sent.insert(at, other);
            assert_eq!(fit(0.5, None, &sent), Err(Refused::TwoContents));
            // Sent again, both of them, it is a clash all the same.
            assert_eq!(fit(0.5, None, &[&sent[..], &sent[..]].concat()), Err(Refused::TwoContents));
        }
    }
    let zeros = |number| [Quote { number: 7, k: 0.0, w: 0.25, weight: 1.0 }, Quote { number, k: -0.0, w: 0.25, weight: 1.0 }];
    assert_eq!(fit(0.5, None, &zeros(7)), Err(Refused::TwoContents));
    assert_eq!(fit(0.5, None, &zeros(8)), Err(Refused::TooFew { observed: 2, required: 5 }));
}

#[test]
fn a_heavy_quote_is_capped() {
    let mut quotes = smile();
    quotes[6].weight = 16.0;
    assert_eq!(fit(0.5, None, &quotes).unwrap().capped, [6]);
}

#[test]
fn every_refusal_has_its_case() {
    let good = smile();
    let with = |change: fn(&mut Quote)| {
        let mut quotes = smile();
        quotes.iter_mut().for_each(change);
        quotes
    };
    let set = |change: fn(&mut FitConfig)| {
        let mut c = FitConfig::default();
        change(&mut c);
        c
    };
    let refused = |tau, c: Option<&FitConfig>, q: &[Quote]| fit(tau, c, q).unwrap_err();
    assert_eq!(refused(0.5, Some(&set(|c| c.grid = 4)), &good), Refused::Settings);
    assert_eq!(refused(0.5, Some(&set(|c| c.a_min = f64::NAN)), &good), Refused::Settings);
    assert_eq!(refused(f64::NAN, None, &good), Refused::Tau);
    assert_eq!(refused(0.5, None, &good[..4]), Refused::TooFew { observed: 4, required: 5 });
    assert_eq!(refused(0.5, None, &[]), Refused::TooFew { observed: 0, required: 5 });
    assert_eq!(refused(0.5, Some(&set(|c| c.min_observations = usize::MAX)), &[]), Refused::TooFew { observed: 0, required: u64::MAX });
    assert_eq!(refused(0.5, None, &[good[0]; MOST_QUOTES]), Refused::TooFew { observed: 1, required: 5 });
    assert_eq!(refused(0.5, None, &with(|q| q.k = 0.1)), Refused::NoSpan);
    assert_eq!(refused(0.5, None, &with(|q| q.weight = if q.number == 300 { 5e-324 } else { 1e300 })), Refused::Weights);
    assert_eq!(refused(0.5, None, &with(|q| q.w = if q.number % 2 == 0 { 2e200 } else { 1e200 })), Refused::NoFace);
    assert_eq!(refused(0.25, None, &with(|q| q.w = 0.01)), Refused::GridEdge);
    assert!(
        matches!(refused(0.5, Some(&set(|c| c.max_rmse_vol = 1e-9)), &good), Refused::Rmse { rmse_vol, max_rmse_vol } if rmse_vol > max_rmse_vol)
    );
    assert_eq!(refused(0.5, None, &with(|q| q.w = -1.0)), Refused::BadObservation);
    let not_numbers: [fn(&mut Quote); 3] = [|q| q.k = f64::NAN, |q| q.w = f64::NAN, |q| q.weight = f64::NAN];
    assert!(not_numbers.iter().all(|change| refused(0.5, None, &with(*change)) == Refused::BadObservation));
    assert_eq!(refused(0.5, Some(&set(|c| c.grid = 256)), &good), Refused::Size);
    assert_eq!(refused(0.5, None, &[good[0]; MOST_QUOTES + 1]), Refused::Size);
    // 44 comes after 11 and 10 and before 1, 2 and 3.
    let clash = with(|q| q.number = 300);
    assert_eq!(refused(f64::NAN, Some(&set(|c| c.grid = 4)), &clash[..2]), Refused::TwoContents);
    assert_eq!(refused(0.5, Some(&set(|c| c.grid = 256)), &clash), Refused::Size);
    assert_eq!(refused(0.5, None, &[clash, with(|q| q.w = -1.0)].concat()), Refused::BadObservation);
    assert_eq!(refused(0.5, None, &good[..4]).to_string(), "too few quotes: 4 left, 5 needed");
}

#[test]
fn short_room_for_a_fit_is_left_as_it_was() {
    let (quotes, config) = (smile(), FitConfig::default());
    for (four, one) in [(35, 9), (36, 8), (0, 0)] {
        let (mut residuals, mut capped) = (vec![-7.0; four], vec![77; one]);
        let answer = raw::fit_quotes(0.5, config, &quotes, &mut residuals, &mut capped);
        assert_eq!(answer, raw::QuotesAnswer { read: 9, kept: 9, fit: raw::FitAnswer { number: 12, ..Default::default() } });
        assert!(residuals.iter().all(|x| *x == -7.0) && capped.iter().all(|n| *n == 77));
    }
    // Bytes that are not whole quotes, which only the export itself can be handed.
    let (mut sizes, mut reals) = ([0; 4], [0.0; 7]);
    c::default_config(&mut sizes, &mut reals);
    let (mut counts, mut values, mut active) = ([7; 11], [7.0; 14], [true; 7]);
    let number = c::fit_quotes(0.5, &sizes, &reals, &[0; 33], &mut [0.0; 8], &mut [0; 2], &mut counts, &mut values, &mut active);
    assert_eq!((number, counts, values, active), (12, [0; 11], [0.0; 14], [false; 7]));
}

/// A cell tries one face or 64, and its eliminations update at most 8 or 3,438 entries.
fn within_the_bounds(c: Counts) -> bool {
    let all = (c.faces - c.cells) / 63;
    c.faces == c.cells + 63 * all && c.updates <= 8 * (c.cells - all) + 3438 * all
}

#[test]
fn the_solvers_work_is_counted() {
    let (quotes, config) = (smile(), FitConfig::default());
    let fitted = fit(0.5, None, &quotes).unwrap().counts;
    assert!(fitted.updates > 0 && within_the_bounds(fitted), "{fitted:?}");
    // The search of a refusal is the same search; before it nothing was done.
    let counts = |config: FitConfig, quotes: &[Quote]| {
        let (mut residuals, mut capped) = (vec![0.0; 4 * quotes.len()], vec![0; quotes.len()]);
        let answer = raw::fit_quotes(0.5, config, quotes, &mut residuals, &mut capped).fit;
        (answer.number, answer.counts)
    };
    assert_eq!(counts(FitConfig { max_rmse_vol: 1e-9, ..config }, &quotes), (9, fitted));
    assert_eq!(counts(config, &quotes[..4]), (3, Counts::default()));
    let level: Vec<Quote> = quotes.iter().map(|q| Quote { w: 0.01, ..*q }).collect();
    let (number, edge) = counts(config, &level);
    assert!(number == 7 && edge.updates > 0 && within_the_bounds(edge), "{edge:?}");
}

#[test]
fn the_printed_example_of_the_rules() {
    let mut file = vec![0, 0, 0, 0, 1, 0, 0, 0, 0, 0, 0, 0, 0, 0, 0xd0, 0x3f, 9, 0, 0, 0];
    for _ in 0..9 {
        file.extend([7, 0, 0, 0, 0, 0, 0, 0, 0, 0, 0, 0, 0, 0, 0, 0, 0, 0, 0, 0, 0, 0, 0xd0, 0x3f, 0, 0, 0, 0, 0, 0, 0xf0, 0x3f]);
    }
    assert_eq!(answer(&file), "read 9 kept 1\nrefused 3 1 5\n");
    assert_eq!(answer(&file[1..]), "refused 43 0 0\n");
    assert_eq!(answer(&[]), "refused 43 0 0\n");
}

#[test]
fn short_room_for_an_answer_is_left_as_it_was() {
    let file = [0, 0, 0, 0, 1, 0, 0, 0, 0, 0, 0, 0, 0, 0, 0xd0, 0x3f, 0, 0, 0, 0];
    let whole = answer(&file).len();
    let mut out = [b'#'; 64];
    assert_eq!(raw::run(&file, &mut out[..whole - 1]), whole);
    assert_eq!(raw::run(&file, &mut []), whole);
    assert_eq!(out, [b'#'; 64]);
}

#[test]
fn settings_of_their_own() {
    let c = FitConfig::default();
    assert_eq!((c.grid, c.refinements, c.max_recentres, c.min_observations), (21, 12, 40, 5));
    assert_eq!((c.sigma_lo, c.sigma_hi, c.a_min, c.max_rmse_vol), (0.005, 10.0, 1e-8, 0.02));
    assert_eq!((c.pivot_tolerance, c.feasibility_tolerance, c.max_weight_ratio), (1e-12, 1e-12, 10.0));
    assert_eq!(fit(0.5, Some(&c), &smile()), fit(0.5, None, &smile()));
}

#[test]
fn elementary_functions() {
    assert_eq!((raw::sqrt(2.25), raw::hypot(3.0, 4.0), raw::ln(1.0), raw::exp(0.0)), (1.5, 5.0, 0.0, 1.0));
    assert!(raw::sqrt(-1.0).is_nan() && raw::ln(-1.0).is_nan() && raw::exp(f64::NAN).is_nan());
}

#[test]
fn the_abi_number() {
    assert_eq!((abi(), ABI), (4, 4));
}

#[test]
fn the_numbers_of_the_header() {
    let number = |name: &str| {
        let header = include_str!("../../../include/kesupayro.h");
        header.lines().find_map(|line| line.strip_prefix("#define ")?.strip_prefix(name)?.parse::<usize>().ok()).unwrap()
    };
    assert_eq!((number("PORT_ABI "), number("PORT_MOST_ANSWER "), number("PORT_STACK ")), (ABI as usize, raw::MOST_ANSWER, raw::STACK));
    assert_eq!((number("PORT_REJECT "), number("PORT_CONSTANT_VOL ")), (c::REJECT as usize, c::CONSTANT_VOL as usize));
}
