//! check FILE: checks the model in a file and prints its report in document 01's form. The exit status is 0 for no line but warnings, 1 for
//! a line with an error, 2 for a refusal, 3 if it could not run.
use std::io::{self, Write};
use std::process::ExitCode;

use wuroike::{Checker, Line, Model, Place, Report};

/// A field that may have no value.
fn field(value: Option<u64>) -> String {
    value.map_or("-".into(), |n| n.to_string())
}

/// Prints a line.
fn print(out: &mut impl Write, line: &Line, model: &Model) -> io::Result<()> {
    let letter = if line.is_warning() { 'W' } else { 'E' };
    let place = match line.place() {
        Some(Place::Package) => "package",
        Some(Place::Enum) => "enum",
        Some(Place::Type) => "type",
        Some(Place::Constant) => "constant",
        Some(Place::Node) => "node",
        None => "-",
    };
    write!(out, "{letter}{:04} {place} {} {} {} ", line.code(), line.number(), field(line.equation()), field(line.step()))?;
    out.write_all(line.name().and_then(|n| model.name(n)).unwrap_or(b"-"))?;
    writeln!(out)
}

/// Prints a report.
fn show(report: &Report, model: &Model) -> io::Result<()> {
    let mut out = io::BufWriter::new(io::stdout().lock());
    writeln!(out, "lines {} followed {}", report.lines().len(), report.followed())?;
    report.lines().iter().try_for_each(|line| print(&mut out, line, model))?;
    out.flush()
}

fn main() -> ExitCode {
    let Some(Ok(file)) = std::env::args_os().nth(1).map(std::fs::read) else {
        eprintln!("usage: check FILE");
        return ExitCode::from(3);
    };
    let Ok(model) = Model::from_file(&file) else {
        println!("refused 1 at 0");
        return ExitCode::from(2);
    };
    let mut checker = Checker::new(1024);
    match checker.check(&model) {
        Err(refusal) => {
            println!("{refusal}");
            ExitCode::from(2)
        }
        Ok(report) if show(&report, &model).is_err() => ExitCode::from(3),
        Ok(report) => ExitCode::from(!report.is_clean() as u8),
    }
}
