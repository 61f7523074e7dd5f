//! The published Rust beside the port: the Rust as `oracle/prepare` copied it, and what both are asked with.

/// ln, exp and hypot of the Rust's side.
pub mod elementary;
/// The six counts of a search.
pub mod counts;
/// The house file and the printed answer, written from documents 01 and 02.
pub mod house;
/// When two printed answers are the same.
pub mod rule;
/// Numbers from a seed.
pub mod random;
/// House files from a seed, by class.
pub mod made;
/// House files damaged from a seed.
pub mod damage;
/// The port, linked.
pub mod port;
/// Slices, surfaces and diagnostics of the Rust.
pub mod surfaces;
/// Files of a folder, threads, progress.
pub mod work;

/// What the Rust needs of the rest of its repository: the error that carries a text.
pub mod types;

/// The Rust as published.
#[allow(dead_code, private_interfaces, rustdoc::all)]
#[path = "../../target/oracle/plain/surface.rs"]
pub mod plain;

/// The Rust with six counters.
#[allow(dead_code, private_interfaces, rustdoc::all)]
#[path = "../../target/oracle/counted/surface.rs"]
pub mod counted;

/// The Rust with its float sums started at +0.
#[allow(dead_code, private_interfaces, rustdoc::all)]
#[path = "../../target/oracle/started/surface.rs"]
pub mod started;
