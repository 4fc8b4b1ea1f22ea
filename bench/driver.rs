//! driver ROOM SECONDS FILE...: a table of the median time of a check by the library and by the unchanged Rust, in one process. The library
//! gets the records in memory, and all its checks of them count. The Rust gets the decoded project; reading the records and freeing its
//! report don't count. Work memory and lines are cleared before each call, outside the time. The two are called by turns.
#[allow(dead_code)]
#[path = "../tests/oracle/rust/driver/read.rs"]
mod read;
#[allow(dead_code)]
#[path = "../tests/oracle/rust/driver/records.rs"]
mod records;

use std::hint::black_box;
use std::path::Path;
use std::time::{Duration, Instant};

use ol_ir::Diagnostic;
use wuroike::{Counts, Line, Model, Refusal, WORK};

const MOST_CALLS: usize = 2001;
const LEAST_CALLS: usize = 3;

/// The median.
fn median(times: &mut [Duration]) -> f64 {
    times.sort();
    times[times.len() / 2].as_nanos() as f64
}

/// The time of one check by the library.
fn ours(model: &Model, work: &mut [u64], lines: &mut [Line]) -> (Duration, Result<Counts, Refusal>) {
    work.fill(0);
    lines.fill(Line::default());
    let start = Instant::now();
    let told = wuroike::check(black_box(model.kinds()), model.words(), model.text(), work, lines);
    (start.elapsed(), told)
}

/// The time of one check by the Rust.
fn theirs(project: &ol_ir::Project) -> (Duration, Vec<Diagnostic>) {
    let start = Instant::now();
    let told = ol_typecheck::check_project(black_box(project));
    (start.elapsed(), told.diagnostics)
}

/// How many diagnostics the Rust has for these lines: one for a whole loop.
fn diagnostics(lines: &[Line]) -> usize {
    lines.iter().filter(|l| l.code() != 60 || l.step() == Some(0)).count()
}

/// A row of the table.
fn row(path: &Path, room: usize, seconds: f64) -> Result<(), String> {
    let file = std::fs::read(path).map_err(|e| e.to_string())?;
    let model = Model::from_file(&file).map_err(|e| e.to_string())?;
    let copy = records::Model { kinds: model.kinds().to_vec(), words: model.words().to_vec(), text: model.text().to_vec() };
    let project = read::read(&copy, &read::names_of(&copy.text)?)?;
    let (mut work, mut lines) = (vec![0; WORK], vec![Line::default(); room]);
    let (mut a, mut b) = (Vec::new(), Vec::new());
    let began = Instant::now();
    let mut count = String::new();
    while a.len() < LEAST_CALLS || (a.len() < MOST_CALLS && began.elapsed().as_secs_f64() < seconds) {
        let (time, told) = ours(&model, &mut work, &mut lines);
        a.push(time);
        let (time, report) = theirs(&project);
        b.push(time);
        count = match told {
            Ok(counts) if diagnostics(&lines[..counts.lines]) == report.len() => counts.lines.to_string(),
            Err(Refusal::MoreLines(n)) if n as usize >= report.len() => format!("{n} (refused 7)"),
            other => return Err(format!("{}: {other:?}, the Rust has {} diagnostics", path.display(), report.len())),
        };
    }
    let (calls, a, b, records) = (a.len(), median(&mut a), median(&mut b), model.kinds().len() as f64);
    let name = path.file_stem().unwrap_or_default().to_string_lossy().replace('-', " ");
    println!("| {name} | {records} | {count} | {:.1} | {:.0} | {:.1} | {:.0} | {:.2} | {calls} |", a / 1e3, a / records, b / 1e3, b / records, b / a);
    Ok(())
}

fn main() -> Result<(), String> {
    let arguments: Vec<String> = std::env::args().skip(1).collect();
    let [room, seconds, files @ ..] = &arguments[..] else { return Err("usage: driver ROOM SECONDS FILE...".into()) };
    let room = room.parse().map_err(|_| "ROOM is a number")?;
    let seconds = seconds.parse().map_err(|_| "SECONDS is a number")?;
    println!("| model | records | lines | ours, us | ns a record | Rust, us | ns a record | ratio | calls |");
    println!("|---|---|---|---|---|---|---|---|---|");
    files.iter().try_for_each(|f| row(Path::new(f), room, seconds))
}
