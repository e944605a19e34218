//! A second program for the joint board, written from document 01 alone and by brute force, to compare with.

mod batch;
mod board;
mod examples;
mod generate;
mod measure;
mod nearest;
mod random;
mod report;
mod rules;
mod selftest;
mod sheet;
mod window;

use std::fs;
use std::io::{self, Read, Write};
use std::path::{Path, PathBuf};
use std::process::ExitCode;

use generate::{boards, calls, sheets, texts};
use report::{report, Tally};

const USAGE: &str = "\
usage:
  second report < SHEET             the report of a sheet
  second reports DIR                for each NAME.sheet in DIR, its report in NAME.report
  second tally DIR                  how often the reports of the sheets in DIR have each refusal
  second check < BOARDS             number, joints and boxes of each board
  second measure < TEXTS            number and value of each text, read as a plain and as a marked measure
  second build < CELLS              number, joints, boxes, length and bitmap built from each list of cells
  second sheet < CALLS              number, offset, height, joints, boxes, length, next record and bitmap of each sheet
  second tablet < CALLS             the same for a call that brings its own work room
  second nearest < QUESTIONS        number, joints found and boxes opened of each question, then the joints and the trail
  second sheets N SEED DIR          writes the fixed sheets and N random ones to DIR
  second boards N SEED              the stream of the fixed boards and N random ones, for check
  second texts N SEED               the stream of the fixed texts and N random ones, for measure
  second cells N SEED               the stream of the fixed lists of cells and N random ones, for build
  second calls N SEED               the stream of the fixed sheets and N random ones, for sheet and tablet
  second questions N SEED           the stream of the fixed questions and N random ones, for nearest
  second examples DIR               writes the sheets with reports written by hand to DIR, as NAME.sheet and NAME.report
  second selftest                   tests this program
The streams are described in README.md.";

fn main() -> ExitCode {
    let arguments: Vec<String> = std::env::args().skip(1).collect();
    let words: Vec<&str> = arguments.iter().map(String::as_str).collect();
    match run(&words) {
        Ok(true) => ExitCode::SUCCESS,
        Ok(false) => ExitCode::FAILURE,
        Err(error) => {
            eprintln!("second: {error}");
            ExitCode::from(2)
        }
    }
}

/// Does what the arguments say; false when a test failed, an error when it could not be done.
fn run(words: &[&str]) -> Result<bool, String> {
    match words {
        ["report"] => print(report(&input()?).as_bytes())?,
        ["reports", dir] => write_reports(Path::new(dir))?,
        ["tally", dir] => print(tally(Path::new(dir))?.lines().as_bytes())?,
        ["check"] => answer(batch::check_line)?,
        ["measure"] => answer(batch::measure_line)?,
        ["build"] => answer(batch::build_line)?,
        ["sheet"] => answer(batch::sheet_line)?,
        ["tablet"] => answer(batch::tablet_line)?,
        ["nearest"] => answer(batch::nearest_line)?,
        ["sheets", count, seed, dir] => write_sheets(number(count)? as usize, number(seed)?, Path::new(dir))?,
        ["boards", count, seed] => print(&boards::stream(number(count)? as usize, number(seed)?))?,
        ["texts", count, seed] => print(&texts::stream(number(count)? as usize, number(seed)?))?,
        ["cells", count, seed] => print(&calls::build_stream(number(count)? as usize, number(seed)?))?,
        ["calls", count, seed] => print(&calls::sheet_stream(number(count)? as usize, number(seed)?))?,
        ["questions", count, seed] => print(&calls::nearest_stream(number(count)? as usize, number(seed)?))?,
        ["examples", dir] => write_examples(Path::new(dir))?,
        ["selftest"] => return Ok(selftest::run()),
        ["help" | "--help" | "-h"] => print(format!("{USAGE}\n").as_bytes())?,
        [] => return Err(format!("no command is given\n{USAGE}")),
        [command, ..] => return Err(format!("`{command}` is no command, or not with {} arguments\n{USAGE}", words.len() - 1)),
    }
    Ok(true)
}

fn number(word: &str) -> Result<u64, String> {
    word.parse().map_err(|_| format!("`{word}` is no number from 0 up"))
}

fn input() -> Result<Vec<u8>, String> {
    let mut bytes = vec![];
    io::stdin().read_to_end(&mut bytes).map_err(|e| format!("standard input: {e}"))?;
    Ok(bytes)
}

fn print(bytes: &[u8]) -> Result<(), String> {
    let mut out = io::stdout().lock();
    out.write_all(bytes).and_then(|()| out.flush()).map_err(|e| format!("standard output: {e}"))
}

fn answer(line: batch::Line) -> Result<(), String> {
    print(batch::answer_all(&input()?, line)?.as_bytes())
}

fn read(path: &Path) -> Result<Vec<u8>, String> {
    fs::read(path).map_err(|e| format!("{}: {e}", path.display()))
}

fn write(path: &Path, bytes: &[u8]) -> Result<(), String> {
    fs::write(path, bytes).map_err(|e| format!("{}: {e}", path.display()))
}

/// The sheets of a directory, in the order of their names.
fn sheet_paths(dir: &Path) -> Result<Vec<PathBuf>, String> {
    let entries = fs::read_dir(dir).map_err(|e| format!("{}: {e}", dir.display()))?;
    let mut paths = vec![];
    for entry in entries {
        let path = entry.map_err(|e| format!("{}: {e}", dir.display()))?.path();
        if path.extension() == Some("sheet".as_ref()) {
            paths.push(path);
        }
    }
    paths.sort();
    Ok(paths)
}

fn write_reports(dir: &Path) -> Result<(), String> {
    for path in sheet_paths(dir)? {
        write(&path.with_extension("report"), report(&read(&path)?).as_bytes())?;
    }
    Ok(())
}

fn tally(dir: &Path) -> Result<Tally, String> {
    let mut tally = Tally::default();
    for path in sheet_paths(dir)? {
        tally.add(&report(&read(&path)?));
    }
    Ok(tally)
}

fn create(dir: &Path) -> Result<(), String> {
    fs::create_dir_all(dir).map_err(|e| format!("{}: {e}", dir.display()))
}

fn write_sheets(count: usize, seed: u64, dir: &Path) -> Result<(), String> {
    create(dir)?;
    for (i, sample) in sheets::samples(count, seed).iter().enumerate() {
        write(&dir.join(format!("{i:05}-{}.sheet", sample.label)), &sample.bytes)?;
    }
    Ok(())
}

fn write_examples(dir: &Path) -> Result<(), String> {
    create(dir)?;
    for example in examples::all() {
        write(&dir.join(format!("{}.sheet", example.name)), &example.sheet)?;
        write(&dir.join(format!("{}.report", example.name)), example.report.as_bytes())?;
    }
    Ok(())
}
