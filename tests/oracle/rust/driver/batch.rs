//! Many models in one run. A model of a stream is: work words, room for lines and file length (4 bytes each, low byte first), then the
//! file. An answer is document 01's text followed by an empty line.
use std::io::{BufWriter, Read, Write};

use crate::records::Model;
use crate::report::{Report, NONE};
use crate::walk::Rule;
use crate::{answer, answer_by, from_file, gen, number, read};

const PLACES: [&str; 5] = ["package", "enum", "type", "constant", "node"];
const WORK: u32 = 4096;
const ROOM: u32 = 1024;

/// Document 01's file of a model.
fn file_of(model: &Model) -> Vec<u8> {
    let mut file = Vec::new();
    file.extend((model.kinds.len() as u32).to_le_bytes());
    file.extend((model.text.len() as u32).to_le_bytes());
    file.extend(&model.kinds);
    model.words.iter().for_each(|w| file.extend(w.to_le_bytes()));
    file.extend(&model.text);
    file
}

/// A report as document 01 prints it.
fn printed(report: &Report, names: &[String]) -> String {
    let field = |n: u64| if n == NONE { "-".to_string() } else { n.to_string() };
    let mut text = format!("lines {} followed {}\n", report.lines.len(), report.followed);
    for l in &report.lines {
        let letter = if l.warning { 'W' } else { 'E' };
        let name = if l.name == NONE { "-" } else { &names[l.name as usize] };
        let place = PLACES[l.place as usize];
        text += &format!("{letter}{:04} {place} {} {} {} {name}\n", l.code, l.number, field(l.equation), field(l.step));
    }
    text
}

/// The report on a file, whatever the work and room; `outside WHY` where the Rust is not compared.
fn judged(file: &[u8], rule: Rule) -> String {
    let told = from_file(file).and_then(|model| Ok((answer_by(&model, rule)?, read::names_of(&model.text)?)));
    match told {
        Ok((report, names)) => printed(&report, &names),
        Err(why) => format!("outside {why}\n"),
    }
}

/// Reads a stream from standard input and prints the answers.
pub fn answers(rule: Rule) -> Result<(), String> {
    let mut input = std::io::stdin().lock();
    let mut out = BufWriter::new(std::io::stdout().lock());
    let mut head = [0; 12];
    while input.read_exact(&mut head).is_ok() {
        let size = u32::from_le_bytes(head[8..].try_into().unwrap()) as usize;
        let mut file = vec![0; size];
        input.read_exact(&mut file).map_err(|e| e.to_string())?;
        writeln!(out, "{}", judged(&file, rule)).map_err(|e| e.to_string())?;
    }
    out.flush().map_err(|e| e.to_string())
}

/// Writes COUNT random models as a stream; those whose number 3 and SHARE divide show the code whose turn it is.
pub fn stream(seed: &str, count: &str, share: &str) -> Result<(), String> {
    let (seed, share) = (number(seed)?, number(share)?.max(1));
    let mut out = BufWriter::new(std::io::stdout().lock());
    for i in 0..number(count)? {
        let shows = |model: &Model, code: u64| {
            i % share != 0 || answer(model).is_ok_and(|report| report.lines.iter().any(|l| l.code == code))
        };
        let file = file_of(&gen::model(seed, i, shows));
        for n in [WORK, ROOM, file.len() as u32] {
            out.write_all(&n.to_le_bytes()).map_err(|e| e.to_string())?;
        }
        out.write_all(&file).map_err(|e| e.to_string())?;
    }
    out.flush().map_err(|e| e.to_string())
}
