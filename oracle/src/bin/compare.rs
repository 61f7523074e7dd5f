//! Runs the port and the Rust on house files and compares every printed value; then hands the port the records without a file, and compares every place of that answer.

use oracle::rule::{Kind, Outcome};
use oracle::{house, made, port, rule, work};
use std::collections::BTreeMap;

const HOW: &str = "oracle/compare [--platform] [--jobs J] FOLDER|FILE..
    the port beside the Rust on every NAME.house, as a file and as quotes; exit status 1 where something differs
    --platform   the Rust with the platform's ln, exp and hypot: differences are counted by class, exit status 0
    --stored     the port beside the stored NAME.answer (where there is one), without the Rust; files alone
    --all        every difference, not the first 20";

fn name_of(path: &std::path::Path) -> String {
    path.file_name().map_or_else(String::new, |n| n.to_string_lossy().into_owned())
}

fn numbers(by: &BTreeMap<u32, usize>) -> String {
    let words: Vec<String> = by.iter().filter(|n| *n.0 != 0).map(|(n, c)| format!("{n}: {c}")).collect();
    words.join(", ")
}

fn main() {
    let stop = |e: String| -> ! { work::usage(&e, HOW) };
    let words = work::Words::read(&["jobs"], &["platform", "stored", "all"]).unwrap_or_else(|e| stop(e));
    if words.rest.is_empty() {
        stop("no file named".to_string());
    }
    let platform = words.has("platform");
    let stored = words.has("stored");
    if platform {
        oracle::elementary::use_platform();
    }
    let mut files = work::house_files(&words.rest).unwrap_or_else(|e| stop(e));
    if stored {
        files.retain(|f| f.with_extension("answer").exists());
    }
    let jobs = words.number("jobs", work::processors() as u64).unwrap_or_else(|e| stop(e)) as usize;
    let most = if words.has("all") { usize::MAX } else { 20 };

    let (mut accepted, mut refused) = (0_usize, BTreeMap::<u32, usize>::new());
    let (mut quotes, mut equal, mut zeros, mut different) = (0_usize, 0_usize, 0_usize, 0_usize);
    let mut by_kind = BTreeMap::<Kind, usize>::new();
    let mut by_class = BTreeMap::<&str, [usize; 5]>::new();
    let progress = work::Progress::new("files", files.len());
    let one = |i: usize| {
        let bytes = std::fs::read(&files[i]).unwrap_or_else(|e| stop(format!("{}: {e}", files[i].display())));
        let port = port::run(&bytes);
        if stored {
            let path = files[i].with_extension("answer");
            let rust = std::fs::read(&path).unwrap_or_else(|e| stop(format!("{}: {e}", path.display())));
            let number = std::str::from_utf8(&rust).ok().and_then(rule::number).unwrap_or(u32::MAX);
            return (number, false, rule::compare(&port, &rust));
        }
        let rust = house::answer(&bytes);
        let mut outcome = rule::compare(&port, rust.text.as_bytes());
        if !matches!(outcome, Outcome::Different(_))
            && let Some(told) = &rust.told
            && let Some(d) = port::quotes::difference(&bytes, told)
        {
            outcome = Outcome::Different(d);
        }
        (rust.number, rust.told.is_some(), outcome)
    };
    work::each(files.len(), jobs, one, |i, (number, as_quotes, outcome)| {
        quotes += usize::from(as_quotes);
        if number == 0 {
            accepted += 1;
        }
        *refused.entry(number).or_default() += 1;
        let class = by_class.entry(made::class_of(&name_of(&files[i]))).or_default();
        class[4] += 1;
        match outcome {
            Outcome::Same => equal += 1,
            Outcome::SameButZeros => {
                equal += 1;
                zeros += 1;
            }
            Outcome::Different(d) => {
                class[d.kind as usize] += 1;
                *by_kind.entry(d.kind).or_default() += 1;
                if different < most && !(platform && most == 20) {
                    progress.end();
                    println!("{}: {}: {}", files[i].display(), d.kind.words(), d.first);
                } else if different == most && !platform {
                    println!("more differ (--all lists them)");
                }
                different += 1;
            }
        }
        progress.at(i + 1, &format!("{different} different"));
    });
    progress.end();

    let side = match (stored, platform) {
        (true, _) => "the stored answers",
        (false, true) => "the Rust with the platform's ln, exp and hypot",
        (false, false) => "the Rust",
    };
    println!("{} files, {quotes} of them as quotes too, in {:.0} s, the port beside {side}", files.len(), progress.seconds());
    println!("accepted {accepted}, refused {} ({})", files.len() - accepted, numbers(&refused));
    println!("equal {equal} ({zeros} of them but for a zero's sign), different {different}");
    if different > 0 {
        let kinds: Vec<String> = by_kind.iter().map(|(k, n)| format!("{} {n}", k.words())).collect();
        println!("{}", kinds.join(", "));
    }
    if platform {
        println!("\n{:12}{:>8}{:>8}{:>9}{:>8}{:>8}", "class", "files", "equal", "verdict", "counts", "values");
        for (class, n) in &by_class {
            let [verdict, counts, values, form, files] = *n;
            println!("{class:12}{files:>8}{:>8}{verdict:>9}{counts:>8}{:>8}", files - verdict - counts - values - form, values + form);
        }
    }
    std::process::exit(i32::from(different > 0 && !platform));
}
