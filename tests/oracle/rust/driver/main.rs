//! The oracle: random models with the Rust's answers (README.md says how to run it).
mod batch;
mod express;
mod focus;
mod gen;
mod hints;
mod names;
mod read;
mod records;
mod report;
mod rng;
mod special;
mod tuples;
mod walk;

use std::collections::{BTreeMap, BTreeSet, HashMap};
use std::io::Write;
use std::process::exit;

use records::Model;
use report::Report;
use walk::Rule;

/// The report on a model, the Rust's or that with the requests of document 02. The project is read a
/// second time with other names in the same order (n000, n001, ..): the report must be the same, which
/// tests that names are read off the messages rightly. Where a name holds a space only the second
/// reading is used.
fn answer_by(model: &Model, rule: Rule) -> Result<Report, String> {
    let names = read::names_of(&model.text)?;
    let plain: Vec<String> = (0..names.len()).map(|i| format!("n{i:03}")).collect();
    let other = report_with(model, &plain, rule)?;
    if !names.iter().any(|n| n.contains(' ')) {
        assert_eq!(report_with(model, &names, rule)?, other, "names matter");
    }
    Ok(other)
}

/// The report that is due.
fn answer(model: &Model) -> Result<Report, String> {
    answer_by(model, Rule::Amended)
}

fn report_with(model: &Model, names: &[String], rule: Rule) -> Result<Report, String> {
    let project = read::read(model, names)?;
    let numbers: HashMap<String, u64> = names.iter().cloned().zip(0..).collect();
    Ok(report::report(&project, &numbers, rule))
}

fn joined<T: ToString>(items: impl IntoIterator<Item = T>) -> String {
    items.into_iter().map(|x| x.to_string()).collect::<Vec<_>>().join(",")
}

/// One model and its report as a JSON object on one line.
fn json(model: &Model, report: &Report) -> String {
    let line = |l: &report::Line| {
        format!("[{}]", joined([l.code, l.place, l.number, l.equation, l.step, l.name]))
    };
    let warnings = report.lines.iter().enumerate().filter(|(_, l)| l.warning).map(|(i, _)| i);
    format!(
        "{{\"kinds\":[{}],\"words\":[{}],\"text\":[{}],\"lines\":[{}],\"warnings\":[{}],\"followed\":{}}}",
        joined(&model.kinds),
        joined(&model.words),
        joined(&model.text),
        joined(report.lines.iter().map(line)),
        joined(warnings),
        report.followed
    )
}

/// A model in the file format: record count and text length, kinds, words, text.
fn from_file(bytes: &[u8]) -> Result<Model, String> {
    if bytes.is_empty() {
        return Ok(Model { kinds: vec![], words: vec![], text: vec![] });
    }
    let size = |at: usize| -> Result<usize, String> {
        let part = bytes.get(at..at + 4).ok_or("the file is too short")?;
        Ok(u32::from_le_bytes(part.try_into().unwrap()) as usize)
    };
    let (records, text) = (size(0)?, size(4)?);
    if records > read::MOST_RECORDS || text > read::MOST_TEXT || bytes.len() != 8 + 9 * records + text {
        return Err("a wrong file length or too large".into());
    }
    let (kinds, rest) = bytes[8..].split_at(records);
    let (words, text) = rest.split_at(8 * records);
    Ok(Model {
        kinds: kinds.to_vec(),
        words: words.chunks(8).map(|w| u64::from_le_bytes(w.try_into().unwrap())).collect(),
        text: text.to_vec(),
    })
}

fn check(path: &str) -> Result<(), String> {
    let bytes = std::fs::read(path).map_err(|e| e.to_string())?;
    let model = from_file(&bytes)?;
    println!("{}", json(&model, &answer(&model)?));
    Ok(())
}

fn number(text: &str) -> Result<u64, String> {
    text.parse().map_err(|_| format!("no number: {text}"))
}

/// A random model; draws again where the code whose turn it is doesn't show.
fn random(seed: u64, index: u64) -> Model {
    gen::model(seed, index, |model, code| {
        answer(model).is_ok_and(|report| report.lines.iter().any(|l| l.code == code))
    })
}

/// Prints COUNT random models with the Rust's answers.
fn generate(seed: &str, count: &str) -> Result<(), String> {
    let mut out = std::io::BufWriter::new(std::io::stdout().lock());
    let seed = number(seed)?;
    for i in 0..number(count)? {
        let model = random(seed, i);
        writeln!(out, "{}", json(&model, &answer(&model)?)).map_err(|e| e.to_string())?;
    }
    out.flush().map_err(|e| e.to_string())
}

/// Prints how many of COUNT random models show each code, each source line of the Rust that adds a
/// diagnostic, and sizes.
fn codes(seed: &str, count: &str) -> Result<(), String> {
    let (seed, count) = (number(seed)?, number(count)?);
    let mut shown: BTreeMap<(u64, u32), u64> = BTreeMap::new();
    let mut totals: BTreeMap<u64, u64> = BTreeMap::new();
    let (mut sizes, mut lines, mut followed, mut clean) = (Vec::new(), 0, 0, 0);
    for i in 0..count {
        let model = random(seed, i);
        let report = answer(&model)?;
        sizes.push(model.kinds.len());
        lines += report.lines.len();
        followed += report.followed;
        clean += report.lines.is_empty() as u64;
        let codes = report.lines.iter().map(|l| l.code);
        let sites: BTreeSet<(u64, u32)> = codes.clone().zip(report.sources.iter().copied()).collect();
        sites.into_iter().for_each(|s| *shown.entry(s).or_default() += 1);
        let codes: BTreeSet<u64> = codes.collect();
        codes.into_iter().for_each(|c| *totals.entry(c).or_default() += 1);
    }
    for (code, n) in &totals {
        let sites = shown.iter().filter(|((c, _), _)| c == code).map(|((_, l), n)| format!("line {l}: {n}"));
        println!("{}{code:04} {n} ({})", if *code == 51 { 'W' } else { 'E' }, sites.collect::<Vec<_>>().join(", "));
    }
    sizes.sort();
    let quantile = |q: usize| sizes.get(sizes.len() * q / 100).copied().unwrap_or(0);
    let most = sizes.last().unwrap_or(&0);
    println!("{count} models, {} codes, {lines} lines, followed {followed}, {clean} without lines", totals.len());
    println!("records: {} at 10%, {} at 50%, {} at 90%, {most} at most", quantile(10), quantile(50), quantile(90));
    Ok(())
}

fn main() {
    let args: Vec<String> = std::env::args().skip(1).collect();
    let args: Vec<&str> = args.iter().map(String::as_str).collect();
    let done = match args.as_slice() {
        ["gen", seed, count] => generate(seed, count),
        ["codes", seed, count] => codes(seed, count),
        ["check", path] => check(path),
        ["stream", seed, count, share] => batch::stream(seed, count, share),
        ["answers"] => batch::answers(Rule::Amended),
        ["unchanged"] => batch::answers(Rule::Rust),
        _ => Err("usage: oracle gen SEED COUNT | codes SEED COUNT | check FILE | stream SEED COUNT SHARE | answers | unchanged".into()),
    };
    if let Err(why) = done {
        eprintln!("oracle: {why}");
        exit(1);
    }
}
