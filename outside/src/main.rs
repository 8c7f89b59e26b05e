//! An outside check of the programs `sheet` and `bench`: a second reading of
//! docs/RULES.md that shares no code with the crates.

mod bench;
mod check;
mod compare;
mod coverage;
mod detector;
mod event;
mod examples;
mod fault;
mod field;
mod generate;
mod listing;
mod program;
mod reader;
mod register;
mod report;
mod run;
mod script;
mod search;
mod speed;
mod watch;
mod writer;

use std::fs;
use std::io::{self, Read, Write};
use std::path::Path;
use std::process::ExitCode;

use check::Verdict;
use compare::Reference;
use detector::AxleCounter;

const USAGE: &str = "\
usage: outside compare SHEET_PROGRAM [BENCH_PROGRAM]
                                         run the programs on every sheet and compare
       outside compare-examples DIR BENCH_PROGRAM
                                         compare the examples in DIR, and the bench on them
       outside examples DIR              write the examples into DIR
       outside list < SHEET              print the listing of a sheet
       outside register [track-row] < SHEET
                                         print the register of a sheet
       outside laws EVENTS               watch walks of so many events for the laws
       outside speed BENCH_PROGRAM       time the bench against the reference
       outside sheets DIR                write every sheet, its listing and its register
";

fn main() -> ExitCode {
    let arguments: Vec<String> = std::env::args().skip(1).collect();
    let words: Vec<&str> = arguments.iter().map(String::as_str).collect();
    let result = match words[..] {
        ["compare", sheet] => compare(Path::new(sheet), None),
        ["compare", sheet, bench] => compare(Path::new(sheet), Some(Path::new(bench))),
        ["list"] => print_reference(listing::of_sheet),
        ["register", ref detector @ ..] => print_register(detector),
        ["examples", directory] => examples::write(Path::new(directory)),
        ["compare-examples", directory, bench] => {
            examples::compare(Path::new(directory), Path::new(bench))
        }
        ["laws", events] => look_for_broken_law(events),
        ["speed", bench] => speed::measure(Path::new(bench)),
        ["sheets", directory] => write_sheets(Path::new(directory)),
        _ => {
            eprint!("{USAGE}");
            return ExitCode::from(2);
        }
    };
    match result {
        Ok(true) => ExitCode::SUCCESS,
        Ok(false) => ExitCode::FAILURE,
        Err(error) => {
            eprintln!("outside: {error}");
            ExitCode::from(2)
        }
    }
}

fn compare(sheet: &Path, bench: Option<&Path>) -> io::Result<bool> {
    let sheet = check::lister(sheet)?;
    let bench = bench.map(check::bench).transpose()?;
    println!("sheet: {sheet}");
    if let Some(bench) = bench {
        println!("bench: {bench}");
    }
    Ok(sheet.all_agree() && bench.is_none_or(Verdict::all_agree))
}

fn look_for_broken_law(events: &str) -> io::Result<bool> {
    let events = events.parse().map_err(io::Error::other)?;
    Ok(search::laws_hold(events))
}

fn print_register(detector: &[&str]) -> io::Result<bool> {
    let found = register::BY_DETECTOR.iter().find(|(arguments, _)| *arguments == detector);
    let (_, register) = found.ok_or_else(|| io::Error::other("no such kind of detector"))?;
    print_reference(*register)
}

fn print_reference(reference: Reference) -> io::Result<bool> {
    let mut sheet = Vec::new();
    io::stdin().read_to_end(&mut sheet)?;
    io::stdout().write_all(reference(&sheet).as_bytes())?;
    Ok(true)
}

fn write_sheets(directory: &Path) -> io::Result<bool> {
    fs::create_dir_all(directory)?;
    let samples = [generate::for_listings(), generate::for_registers()].concat();
    for (index, sample) in samples.iter().enumerate() {
        let name = format!("{index:05}-{}", sample.family.replace([' ', ':'], "-"));
        let register = register::of_sheet::<AxleCounter>(&sample.sheet);
        fs::write(directory.join(format!("{name}.sheet")), &sample.sheet)?;
        fs::write(directory.join(format!("{name}.txt")), listing::of_sheet(&sample.sheet))?;
        fs::write(directory.join(format!("{name}.register")), register)?;
    }
    Ok(true)
}
