//! Writes house files made from a seed.

use oracle::{made, work};
use std::collections::BTreeMap;

const HOW: &str = "oracle/generate --seed S --count N [--class C] FOLDER   writes N house files, CLASS-NUMBER.house";

fn main() {
    let stop = |e: String| -> ! { work::usage(&e, HOW) };
    let words = work::Words::read(&["seed", "count", "class"], &[]).unwrap_or_else(|e| stop(e));
    let [folder] = words.rest.as_slice() else { stop("one folder, please".to_string()) };
    let seed = words.number("seed", 1).unwrap_or_else(|e| stop(e));
    let count = words.number("count", 1000).unwrap_or_else(|e| stop(e));
    let class = words.text("class");
    if class.is_some_and(|c| !made::CLASSES.iter().any(|k| k.0 == c)) {
        let names: Vec<_> = made::CLASSES.iter().map(|c| c.0).collect();
        stop(format!("the classes are {}", names.join(" ")));
    }
    std::fs::create_dir_all(folder).unwrap_or_else(|e| stop(format!("{folder}: {e}")));
    let mut by_class = BTreeMap::new();
    for i in 0..count {
        let (class, bytes) = made::file(seed, i, class);
        let path = format!("{folder}/{class}-{i:06}.house");
        std::fs::write(&path, bytes).unwrap_or_else(|e| stop(format!("{path}: {e}")));
        *by_class.entry(class).or_insert(0) += 1;
    }
    let shares: Vec<String> = by_class.iter().map(|(c, n)| format!("{c} {n}")).collect();
    println!("{count} house files of seed {seed} in {folder}: {}", shares.join(", "));
}
