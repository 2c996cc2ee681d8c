//! What is printed: Markdown, so that it can stand in docs/PERFORMANCE.md as it is.

use crate::measure::Line;
use std::fmt::Write;
use std::path::Path;
use std::{fs, io};

/// A table's name, its five counts, its lines.
pub struct Measured {
    pub table: &'static str,
    pub counts: [usize; 5],
    pub lines: Vec<Line>,
}

/// Nanoseconds, with as many places as are of use.
fn time(time: f64) -> String {
    match time {
        ..100.0 => format!("{time:.1}"),
        _ => format!("{time:.0}"),
    }
}

fn ratio(other: f64, proved: f64) -> String {
    match other / proved {
        quotient @ ..10.0 => format!("{quotient:.2}"),
        quotient => format!("{quotient:.0}"),
    }
}

/// The ratios of all tables, then the times of each.
pub fn all(measured: &[Measured]) -> String {
    let mut text = String::new();
    let lent = "**Same inputs.** The second program is lent the same words and bytes: its time by the proved call's.";
    let kept = "**Kept sets.** The second program answers from sets that it keeps, and judges no memory: its time by \
                the proved call's.";
    ratios(&mut text, lent, measured, |line| line.lent).expect("a string takes all");
    let judged = below(measured, |line| line.judging + line.kept);
    writeln!(text, "\nThe same, counting of the second program's time its test of the words and its call alone: {judged}.\n")
        .expect("a string takes all");
    ratios(&mut text, kept, measured, |line| line.kept).expect("a string takes all");
    for one in measured {
        times(&mut text, one).expect("a string takes all");
    }
    text
}

/// In how many lines the proved call is slower, and where the ratio is least.
fn below(measured: &[Measured], second: impl Fn(&Line) -> f64) -> String {
    let lines = measured.iter().flat_map(|one| one.lines.iter().map(move |line| (one.table, line)));
    let ratios: Vec<(f64, &str, &Line)> =
        lines.map(|(table, line)| (second(line) / line.proved, table, line)).collect();
    let slower = ratios.iter().filter(|(ratio, ..)| *ratio < 1.0).count();
    let least = ratios.iter().min_by(|one, other| one.0.total_cmp(&other.0));
    let (least, table, line) = least.expect("something was measured");
    let Line { call, case, .. } = line;
    format!("below 1 are {slower} of {}, the least is {least:.2}, {call} {case} on {table}", ratios.len())
}

/// The case without the number of a set, which differs from table to table.
fn case_of(line: &Line) -> &str {
    line.case.trim_start_matches(|c: char| c.is_ascii_digit()).trim_start()
}

/// How the second program's time stands to the proved call's, call by call and table by table.
fn ratios(
    text: &mut String,
    title: &str,
    measured: &[Measured],
    second: impl Fn(&Line) -> f64,
) -> std::fmt::Result {
    writeln!(text, "{title} Below 1 the proved call is the slower one.\n")?;
    let names: Vec<&str> = measured.iter().map(|one| one.table).collect();
    writeln!(text, "| call | case | {} |", names.join(" | "))?;
    writeln!(text, "|---|---|{}", "---:|".repeat(names.len()))?;
    let mut rows: Vec<(&str, &str)> = Vec::new();
    for line in measured.iter().flat_map(|one| &one.lines) {
        let row = (line.call.as_str(), case_of(line));
        if !rows.contains(&row) {
            rows.push(row);
        }
    }
    rows.sort_by_key(|(call, _)| measured[0].lines.iter().position(|line| line.call == *call));
    for (call, case) in &rows {
        write!(text, "| {call} | {case} |")?;
        for one in measured {
            match one.lines.iter().find(|line| line.call == *call && case_of(line) == *case) {
                Some(line) => write!(text, " {} |", ratio(second(line), line.proved))?,
                None => write!(text, " |")?,
            }
        }
        writeln!(text)?;
    }
    writeln!(text, "\nOf these, {}.", below(measured, second))
}

fn times(text: &mut String, Measured { table, counts, lines }: &Measured) -> std::fmt::Result {
    let [elements, assignments, associations, prohibitions, processes] = counts;
    let judging = lines.iter().map(|line| line.judging).filter(|time| *time > 0.0).min_by(f64::total_cmp);
    let judging = judging
        .map_or(String::new(), |least| format!("; the second program's test of the words: {}", time(least)));
    writeln!(
        text,
        "\n**{table}**: {elements} elements, {assignments} assignments, {associations} associations, \
         {prohibitions} prohibitions, {processes} processes; nanoseconds a call{judging}.\n"
    )?;
    writeln!(text, "| call | case | proved | second, same inputs | by proved | second, kept sets | by proved | C | by proved |")?;
    writeln!(text, "|---|---|---:|---:|---:|---:|---:|---:|---:|")?;
    for line in lines {
        let Line { call, case, proved, lent, kept, c, .. } = line;
        write!(text, "| {call} | {case} | {} |", time(*proved))?;
        for other in [lent, kept] {
            write!(text, " {} | {} |", time(*other), ratio(*other, *proved))?;
        }
        match c {
            Some(c) => writeln!(text, " {} | {} |", time(*c), ratio(*c, *proved))?,
            None => writeln!(text, " | |")?,
        }
    }
    Ok(())
}

/// The lines of the page between which the text stands.
const START: &str = "<!-- printed by bench: start -->\n";
const END: &str = "<!-- printed by bench: end -->\n";

/// Puts the text into docs/PERFORMANCE.md, in the place of what a run put there before.
pub fn into_page(text: &str) -> io::Result<()> {
    let path = Path::new(env!("CARGO_MANIFEST_DIR")).join("../docs/PERFORMANCE.md");
    let page = fs::read_to_string(&path)?;
    let missing = || io::Error::other("the lines are missing between which the table stands");
    let (before, rest) = page.split_once(START).ok_or_else(missing)?;
    let (_, after) = rest.split_once(END).ok_or_else(missing)?;
    fs::write(&path, format!("{before}{START}\n{text}\n{END}{after}"))
}
