//! The binary `second`: `calls` answers a script, `list` lists a style file, `gen` prints a
//! script, `styles` writes style files to try `list` on; `report`, `check` and `plays` print what
//! the tool for people prints in JSON, `files` writes style files to try it on, `page` judges a
//! page of it. Only arguments are handled here.

use second::calls::{calls, ONLY_NAMED, VERBS};
use second::gen::generate;
use second::gen::styles::style_files;
use second::gen::tool_files::tool_files;
use second::list::{list, LIST_LIMIT};
use second::page;
use second::report::{facts, input, plays::who_plays, summary};
use std::ffi::OsString;
use std::io::{self, BufWriter, Read, Write};
use std::os::unix::ffi::OsStrExt;
use std::process::ExitCode;

const USAGE: &str = "usage: second calls | second list | second gen SEED COUNT [VERB ..] \
                     | second styles SEED COUNT FOLDER | second files SEED COUNT FOLDER \
                     | second report FILE | second check FILE .. \
                     | second plays FILE PART CHORD | second page";

/// How a program ends: well, with the answer no, or without an answer.
type Done = io::Result<ExitCode>;
const NO: u8 = 1;
const NOT_DONE: u8 = 2;

fn main() -> ExitCode {
    let asked: Vec<OsString> = std::env::args_os().skip(1).collect();
    let words: Vec<&str> = asked
        .iter()
        .map(|word| word.to_str().unwrap_or(""))
        .collect();
    let done = match words.as_slice() {
        ["calls"] => {
            calls(io::stdin().lock(), BufWriter::new(io::stdout().lock())).map(|()| success())
        }
        ["list"] => run_list().map(|()| success()),
        ["gen", seed, count, verbs @ ..] if verbs.iter().all(is_verb) => {
            match (seed.parse(), count.parse()) {
                (Ok(seed), Ok(count)) => run_gen(seed, count, verbs).map(|()| success()),
                _ => return usage(),
            }
        }
        [kind @ ("styles" | "files"), seed, count, folder] => match (seed.parse(), count.parse()) {
            (Ok(seed), Ok(count)) => write_styles(kind, seed, count, folder).map(|()| success()),
            _ => return usage(),
        },
        ["report", _] => run_report(&asked[1]),
        ["check", _, ..] => run_check(&asked[1..]),
        ["plays", _, _, _] => run_plays(&asked[1..]),
        ["page"] => run_page(),
        _ => return usage(),
    };
    match done {
        Ok(code) => code,
        Err(error) if error.kind() == io::ErrorKind::BrokenPipe => success(),
        Err(error) => {
            eprintln!("second: {error}");
            ExitCode::FAILURE
        }
    }
}

fn success() -> ExitCode {
    ExitCode::SUCCESS
}

fn is_verb(word: &&str) -> bool {
    VERBS.contains(word) || ONLY_NAMED.contains(word)
}

fn usage() -> ExitCode {
    eprintln!("{USAGE}");
    ExitCode::from(2)
}

/// Prints the script, and on standard error how often each verb had each answer.
fn run_gen(seed: u64, count: u64, verbs: &[&str]) -> io::Result<()> {
    let table = generate(seed, count, verbs, BufWriter::new(io::stdout().lock()))?;
    for ((verb, outcome), lines) in table {
        eprintln!("{verb} {outcome} {lines}");
    }
    Ok(())
}

/// Reads at most one byte more than `list` accepts.
fn run_list() -> io::Result<()> {
    let mut file = Vec::new();
    io::stdin()
        .lock()
        .take(LIST_LIMIT as u64 + 1)
        .read_to_end(&mut file)?;
    let mut output = io::stdout().lock();
    output.write_all(list(&file).as_bytes())?;
    output.flush()
}

/// Writes the files of a seed, each under its number.
fn write_styles(kind: &str, seed: u64, count: usize, folder: &str) -> io::Result<()> {
    if kind == "styles" {
        for (number, file) in style_files(seed, count).iter().enumerate() {
            std::fs::write(format!("{folder}/{number}"), file)?;
        }
        return Ok(());
    }
    for (number, file) in tool_files(seed).take(count).enumerate() {
        std::fs::write(format!("{folder}/{number:04}.sty"), file)?;
    }
    Ok(())
}

/// Says on standard error why there is no answer.
fn no_answer(asked: &OsString, why: &str) -> Done {
    eprintln!("second: {}: {why}", asked.to_string_lossy());
    Ok(ExitCode::from(NOT_DONE))
}

/// The facts of a file; a damaged one ends with 1.
fn run_report(asked: &OsString) -> Done {
    match input::read(asked) {
        Err(why) => no_answer(asked, &why),
        Ok(file) => {
            let name = asked.as_bytes();
            writeln!(io::stdout().lock(), "{}", facts(name, &file))?;
            let (verdict, _) = summary::line(name, Some(&file));
            Ok(summary::exit_status(&[verdict]).into())
        }
    }
}

/// A line for each file, then the totals.
fn run_check(asked: &[OsString]) -> Done {
    let mut output = BufWriter::new(io::stdout().lock());
    let mut verdicts = Vec::new();
    for one in asked {
        let file = input::read(one).ok();
        let (verdict, line) = summary::line(one.as_bytes(), file.as_deref());
        writeln!(output, "{line}")?;
        verdicts.push(verdict);
    }
    writeln!(output, "{}", summary::totals(&verdicts))?;
    output.flush()?;
    Ok(summary::exit_status(&verdicts).into())
}

fn run_plays(asked: &[OsString]) -> Done {
    let (part, chord) = (asked[1].as_bytes(), asked[2].as_bytes());
    let answer =
        input::read(&asked[0]).and_then(|file| who_plays(asked[0].as_bytes(), &file, part, chord));
    match answer {
        Err(why) => no_answer(&asked[0], &why),
        Ok(json) => {
            writeln!(io::stdout().lock(), "{json}")?;
            Ok(success())
        }
    }
}

/// Judges the page on standard input.
fn run_page() -> Done {
    let mut bytes = Vec::new();
    io::stdin().lock().read_to_end(&mut bytes)?;
    match page::check(&bytes) {
        Ok(()) => Ok(success()),
        Err(fault) => {
            writeln!(io::stdout().lock(), "{fault}")?;
            Ok(ExitCode::from(NO))
        }
    }
}
