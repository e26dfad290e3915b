//! Pits a reader and a receiver, written from document 01 and document 02's requests [1] to [3], [5] to [10] and [13]
//! alone, against another implementation of the papers, and writes the stored dialogue of the bench program with them.

mod cases;
mod compare;
mod dialogue;
mod examples;
mod reader;
mod tally;
mod wrong;

use compare::frame::Request;
use compare::probe::Probe;
use compare::{compare, End, Extent, COVERING_CASES};
use examples::Examples;
use std::fs;
use std::io::{self, Write};
use std::panic::{catch_unwind, AssertUnwindSafe};
use std::process::ExitCode;

const USAGE: &str = "usage: independent [--cases N] [--seed S] [--quiet] -- PROGRAM ARGS...
       independent --answer [ERROR]    be a probe, with a deliberate error if named
       independent --errors            list the deliberate errors
       independent --refuse            compare each deliberate error, and demand that the two differ
       independent --dialogue FOLDER   write the stored dialogue, stdin and stdout, into the folder";

const DEFAULT_CASES: u64 = 10_000;

fn main() -> ExitCode {
    let arguments: Vec<String> =
        std::env::args_os().skip(1).map(|argument| argument.to_string_lossy().into_owned()).collect();
    let result = match arguments.first().map(String::as_str) {
        Some("--answer") => answer(&arguments[1..]),
        Some("--errors") if arguments.len() == 1 => list_errors(),
        Some("--refuse") if arguments.len() == 1 => refuse_errors(),
        Some("--dialogue") if arguments.len() == 2 => write_dialogue(&arguments[1]),
        _ => compare_program(&arguments),
    };
    match result {
        Ok(()) => ExitCode::SUCCESS,
        Err(End::Difference(lines)) => disagreement(lines),
        Err(End::Weakness(lines)) => {
            disagreement([vec!["the cases are too weak, these did not occur:".to_string()], lines].concat())
        }
        Err(End::Trouble(trouble)) => {
            eprintln!("independent: {trouble}");
            ExitCode::from(2)
        }
    }
}

fn disagreement(lines: Vec<String>) -> ExitCode {
    println!("independent: {}", lines.join("\n  "));
    ExitCode::from(1)
}

/// Compares a program with the independent reader.
fn compare_program(arguments: &[String]) -> Result<(), End> {
    let mut extent = Extent { cases: DEFAULT_CASES, seed: 1, quiet: false };
    let mut rest = arguments.iter();
    while let Some(argument) = rest.next() {
        match argument.as_str() {
            "--cases" => extent.cases = number(argument, rest.next())?,
            "--seed" => extent.seed = number(argument, rest.next())?,
            "--quiet" => extent.quiet = true,
            "--" => break,
            _ => return Err(End::Trouble(format!("unknown argument {argument}\n{USAGE}"))),
        }
    }
    let program = rest.next().ok_or_else(|| format!("no program is named\n{USAGE}"))?;
    let lines = compare(Probe::start(program, rest.as_slice())?, &Examples::all(), extent)?;
    println!("{}", lines.join("\n"));
    Ok(())
}

fn number(name: &str, value: Option<&String>) -> Result<u64, String> {
    let value = value.map_or("", String::as_str);
    value.parse().map_err(|_| format!("{name} takes a number, not '{value}'\n{USAGE}"))
}

fn list_errors() -> Result<(), End> {
    for wrong in wrong::all() {
        println!("{}", wrong.name);
    }
    Ok(())
}

/// Demands of each deliberate error that the comparer refuses it: the two differ.
fn refuse_errors() -> Result<(), End> {
    let extent = Extent { cases: COVERING_CASES, seed: 1, quiet: true };
    let examples = Examples::all();
    let errors = wrong::all();
    for wrong in &errors {
        let compared = || compare(|request: &Request| wrong.carried_out(request), &examples, extent);
        let failure = match catch_unwind(AssertUnwindSafe(compared)) {
            Ok(Err(End::Difference(_))) => continue,
            Ok(Err(End::Trouble(trouble))) => trouble,
            Ok(_) => return Err(End::Difference(vec![format!("the deliberate error {} is not refused", wrong.name)])),
            Err(_) => "it panics".to_string(),
        };
        return Err(End::Trouble(format!("the deliberate error {}: {failure}", wrong.name)));
    }
    if errors.is_empty() {
        return Err(End::Trouble("there are no deliberate errors".into()));
    }
    println!("independent: {} deliberate errors are refused", errors.len());
    Ok(())
}

/// Acts as a probe with the independent reader, or with a wrong one.
fn answer(arguments: &[String]) -> Result<(), End> {
    let wrong = match arguments {
        [] => None,
        [name] => {
            let wrong = wrong::all().into_iter().find(|wrong| wrong.name == *name);
            Some(wrong.ok_or_else(|| format!("unknown error {name}\n{USAGE}"))?)
        }
        _ => return Err(End::Trouble(format!("--answer takes one error\n{USAGE}"))),
    };
    let carry_out = |request: &Request| match &wrong {
        Some(wrong) => wrong.carried_out(request),
        None => request.carried_out(),
    };
    let (mut input, mut output) = (io::stdin().lock(), io::stdout().lock());
    let mut answer_all = || -> io::Result<()> {
        while let Some(request) = Request::read(&mut input)? {
            output.write_all(&carry_out(&request).frame())?;
            output.flush()?;
        }
        Ok(())
    };
    answer_all().map_err(|error| match error.kind() {
        io::ErrorKind::UnexpectedEof => End::Trouble("--answer: the input ends inside a frame".into()),
        _ => End::Trouble(format!("--answer: {error}")),
    })
}

/// Writes the dialogue of the bench program, if it meets every condition.
fn write_dialogue(folder: &str) -> Result<(), End> {
    let stored = dialogue::stored().map_err(End::Difference)?;
    for (name, bytes) in [("stdin", &stored.sent), ("stdout", &stored.replies)] {
        let path = format!("{folder}/{name}");
        fs::write(&path, bytes).map_err(|error| format!("cannot write {path}: {error}"))?;
    }
    println!("independent: {}", stored.lines.join("\n  "));
    Ok(())
}
