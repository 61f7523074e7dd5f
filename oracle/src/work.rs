//! Files of a folder, threads, progress.

use std::io::{IsTerminal, Write};
use std::path::{Path, PathBuf};
use std::sync::atomic::{AtomicUsize, Ordering::Relaxed};
use std::sync::{Mutex, mpsc};
use std::time::{Duration, Instant};

/// A file as it is, of a folder every NAME.house in it and below, in the order of their names.
pub fn house_files(named: &[String]) -> Result<Vec<PathBuf>, String> {
    let mut out = Vec::new();
    for n in named {
        let path = Path::new(n);
        if path.is_dir() {
            let before = out.len();
            below(path, &mut out).map_err(|e| format!("{n}: {e}"))?;
            if out.len() == before {
                return Err(format!("{n}: no *.house in this folder"));
            }
        } else if path.exists() {
            out.push(path.to_path_buf());
        } else {
            return Err(format!("{n}: no such file or folder"));
        }
    }
    Ok(out)
}

fn below(folder: &Path, out: &mut Vec<PathBuf>) -> std::io::Result<()> {
    let mut entries = std::fs::read_dir(folder)?.map(|e| e.map(|e| e.path())).collect::<Result<Vec<_>, _>>()?;
    entries.sort();
    for p in entries {
        if p.is_dir() {
            below(&p, out)?;
        } else if p.extension().is_some_and(|x| x == "house") {
            out.push(p);
        }
    }
    Ok(())
}

/// Does `one` to 0..count on `jobs` threads and hands each result to `each` in the order of the numbers.
pub fn each<T: Send>(count: usize, jobs: usize, one: impl Fn(usize) -> T + Sync, mut each: impl FnMut(usize, T)) {
    let next = AtomicUsize::new(0);
    std::thread::scope(|scope| {
        let (send, receive) = mpsc::sync_channel::<(usize, T)>(1024);
        for _ in 0..jobs.max(1) {
            let (send, next, one) = (send.clone(), &next, &one);
            std::thread::Builder::new()
                .stack_size(64 << 20)
                .spawn_scoped(scope, move || {
                    loop {
                        let i = next.fetch_add(1, Relaxed);
                        if i >= count || send.send((i, one(i))).is_err() {
                            return;
                        }
                    }
                })
                .expect("a thread");
        }
        drop(send);
        let mut waiting = std::collections::BTreeMap::new();
        let mut due = 0;
        for (i, t) in receive {
            waiting.insert(i, t);
            while let Some(t) = waiting.remove(&due) {
                each(due, t);
                due += 1;
            }
        }
    });
}

/// How many threads, where nobody says it: the machine's processors.
pub fn processors() -> usize {
    std::thread::available_parallelism().map_or(1, |n| n.get())
}

/// A line on the screen that says how far a long run is: after a second, then twice a second on a terminal, else every half minute.
pub struct Progress {
    what: &'static str,
    total: usize,
    start: Instant,
    last: Mutex<Instant>,
}

impl Progress {
    pub fn new(what: &'static str, total: usize) -> Self {
        let now = Instant::now();
        Self { what, total, start: now, last: Mutex::new(now) }
    }

    pub fn at(&self, done: usize, more: &str) {
        let terminal = std::io::stderr().is_terminal();
        let pause = Duration::from_millis(if terminal { 500 } else { 30_000 });
        let mut last = self.last.lock().expect("one thread at a time");
        if last.elapsed() < pause {
            return;
        }
        *last = Instant::now();
        let seconds = self.start.elapsed().as_secs_f64();
        let left = seconds / done.max(1) as f64 * (self.total - done.min(self.total)) as f64;
        let text = format!("{done} of {} {}, {more}, about {left:.0} s left", self.total, self.what);
        if terminal {
            eprint!("\r\x1b[K{text}");
        } else {
            eprintln!("{text}");
        }
        let _ = std::io::stderr().flush();
    }

    pub fn end(&self) {
        if std::io::stderr().is_terminal() {
            eprint!("\r\x1b[K");
        }
    }

    pub fn seconds(&self) -> f64 {
        self.start.elapsed().as_secs_f64()
    }
}

/// Options of a command: `--name value`, `--mark`, and the rest.
pub struct Words {
    pub rest: Vec<String>,
    options: Vec<(String, Option<String>)>,
}

impl Words {
    /// `valued` take a value, `marks` do not.
    pub fn read(valued: &[&str], marks: &[&str]) -> Result<Self, String> {
        let mut out = Self { rest: Vec::new(), options: Vec::new() };
        let mut args = std::env::args().skip(1);
        while let Some(a) = args.next() {
            let name = a.trim_start_matches("--").to_string();
            if !a.starts_with("--") {
                out.rest.push(a);
            } else if valued.contains(&name.as_str()) {
                let value = args.next().ok_or_else(|| format!("{a} needs a value"))?;
                out.options.push((name, Some(value)));
            } else if marks.contains(&name.as_str()) {
                out.options.push((name, None));
            } else if name == "help" {
                return Err("how it goes:".to_string());
            } else {
                return Err(format!("unknown option {a}"));
            }
        }
        Ok(out)
    }

    pub fn has(&self, name: &str) -> bool {
        self.options.iter().any(|o| o.0 == name)
    }

    pub fn text(&self, name: &str) -> Option<&str> {
        self.options.iter().rev().find(|o| o.0 == name).and_then(|o| o.1.as_deref())
    }

    pub fn number(&self, name: &str, default: u64) -> Result<u64, String> {
        match self.text(name) {
            None => Ok(default),
            Some(v) => v.replace('_', "").parse().map_err(|_| format!("--{name} {v}: not a number")),
        }
    }
}

/// Ends with exit status 2 after what is wrong and how it goes.
pub fn usage(wrong: &str, how: &str) -> ! {
    eprintln!("{wrong}\n{how}");
    std::process::exit(2)
}
