//! Time per call: the proved library against the second program, on the same tables and the same inputs; the indexed decision also
//! against one written by hand in C.
//!
//! ```text
//! cargo run --release --offline --manifest-path bench/Cargo.toml             all calls on all tables
//! cargo run --release --offline --manifest-path bench/Cargo.toml NAME ..     some: names of tables, of calls, or of both
//! cargo run --release --offline --manifest-path bench/Cargo.toml -- --page   all, and puts what it prints into docs/PERFORMANCE.md
//! ```
//!
//! docs/PERFORMANCE.md says what is measured, and how.

mod clock;
mod inputs;
mod measure;
mod print;
mod proved;
mod tables;

use measure::{name_of, Subject, CALLS};
use print::Measured;
use std::io::IsTerminal;
use std::process::ExitCode;

fn main() -> ExitCode {
    let mut names: Vec<String> = std::env::args().skip(1).collect();
    let page = names.iter().any(|name| name == "--page");
    names.retain(|name| name != "--page");
    let calls: Vec<String> = CALLS.map(str::to_string).into_iter().chain((0..11).map(name_of)).collect();
    if page && !names.is_empty() {
        eprintln!("bench: --page takes no names: the page has all");
        return ExitCode::from(2);
    }
    let is_table = |name: &String| tables::NAMES.contains(&name.as_str());
    if let Some(name) = names.iter().find(|name| !is_table(name) && !calls.contains(name)) {
        eprintln!("bench: no table and no call is named {name}");
        eprintln!("tables: {}", tables::NAMES.join(" "));
        eprintln!("calls: {}", calls.join(" "));
        return ExitCode::from(2);
    }
    let chosen = |name: &str, named: bool| !named || names.iter().any(|given| given == name);
    let (some_tables, some_calls) =
        (names.iter().any(&is_table), names.iter().any(|name| calls.contains(name)));

    let watched = std::io::stderr().is_terminal();
    let mut measured = Vec::new();
    for table in tables::NAMES.into_iter().filter(|table| chosen(table, some_tables)) {
        let subject = Subject::new(tables::policy(table));
        subject.compare();
        let mut lines = Vec::new();
        for call in calls.iter().filter(|call| chosen(call, some_calls)) {
            if watched {
                eprint!("\r\x1b[K{table} {call}");
            }
            lines.extend(subject.measure(call));
        }
        measured.push(Measured { table, counts: subject.policy.counts(), lines });
    }
    if watched {
        eprint!("\r\x1b[K");
    }
    let text = print::all(&measured);
    print!("{text}");
    if page {
        if let Err(error) = print::into_page(&text) {
            eprintln!("bench: docs/PERFORMANCE.md: {error}");
            return ExitCode::FAILURE;
        }
    }
    ExitCode::SUCCESS
}
