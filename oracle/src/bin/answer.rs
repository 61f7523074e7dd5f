//! Prints the Rust's answer to house files, or with --store writes it beside each as NAME.answer.

use oracle::{house, work};

const HOW: &str = "oracle/answer [--platform] FILE..      prints the Rust's answer to each file; --keep-repeats: every record is a quote of its own
oracle/answers [--platform] FOLDER..   writes NAME.answer beside each NAME.house";

fn main() {
    let words = work::Words::read(&["jobs"], &["store", "platform", "keep-repeats"]).unwrap_or_else(|e| work::usage(&e, HOW));
    if words.rest.is_empty() {
        work::usage("no file named", HOW);
    }
    if words.has("platform") {
        oracle::elementary::use_platform();
    }
    let files = work::house_files(&words.rest).unwrap_or_else(|e| work::usage(&e, HOW));
    let jobs = words.number("jobs", work::processors() as u64).unwrap_or_else(|e| work::usage(&e, HOW));
    let progress = work::Progress::new("files", files.len());
    let answer = |i: usize| {
        let bytes = std::fs::read(&files[i]).unwrap_or_else(|e| work::usage(&format!("{}: {e}", files[i].display()), HOW));
        let answer = if words.has("keep-repeats") { house::answer_with_repeats } else { house::answer };
        answer(&bytes).text
    };
    work::each(files.len(), jobs as usize, answer, |i, text| {
        progress.at(i, "answered");
        if words.has("store") {
            let path = files[i].with_extension("answer");
            std::fs::write(&path, text).unwrap_or_else(|e| work::usage(&format!("{}: {e}", path.display()), HOW));
        } else {
            if files.len() > 1 {
                println!("== {}", files[i].display());
            }
            print!("{text}");
        }
    });
    progress.end();
    if words.has("store") {
        println!("{} answers written", files.len());
    }
}
