//! The charts of a list: `view PROGRAM NAME LIST OUT.svg`, or `view --text PROGRAM NAME LIST`,
//! with `--residue COMPOUND` where it is a residue list. NAME is what the caption calls the program.

use std::io::{self, Write};
use std::path::Path;
use std::process::{exit, Stdio};
use std::{fs, thread};

use peer::arguments::{command, take_category, words};
use peer::category::Category;
use peer::program::{ended, lines};
use peer::view::answers::{parse, Answers};
use peer::view::history::{history, History};
use peer::view::{svg, text};

const USE: &str = "use: view [--residue COMPOUND] PROGRAM NAME LIST OUT.svg, \
                   or view --text [--residue COMPOUND] PROGRAM NAME LIST";

/// The program's answers to a list of lines.
fn ask(program: &str, list: &[&[u8]]) -> Result<Answers, String> {
    let output = run(program, list).map_err(|error| format!("{program}: {error}"))?;
    let answers = parse(&output, list);
    answers.ok_or_else(|| format!("{program} does not print what the documents say"))
}

/// What the program prints; it is fed from beside, so that neither waits for the other.
fn run(program: &str, list: &[&[u8]]) -> io::Result<Vec<u8>> {
    let mut child = command(program).stdin(Stdio::piped()).stdout(Stdio::piped()).spawn()?;
    let mut input = child.stdin.take().expect("its input is a pipe");
    let whole = ended(list);
    let output = thread::scope(|scope| {
        scope.spawn(move || input.write_all(&whole));
        child.wait_with_output()
    })?;
    Ok(output.stdout)
}

fn read(category: Category, program: &str, list: &str) -> Result<History, String> {
    let input = fs::read(list).map_err(|error| format!("{list}: {error}"))?;
    let list: Vec<&[u8]> = lines(&input).collect();
    let answers = ask(program, &list)?;
    history(category, &list, &answers, &mut |count| Ok(ask(program, &list[..count])?.status))
}

/// What the caption calls a list: its file, or the folder of one that is only called `stdin`.
fn list_name(path: &str) -> String {
    let path = Path::new(path);
    let name = match path.parent() {
        Some(folder) if path.ends_with("stdin") => folder.file_name(),
        _ => path.file_name(),
    };
    name.unwrap_or_default().to_string_lossy().into_owned()
}

fn show(category: Category, words: &[&str]) -> Result<(), String> {
    match words {
        ["--text", program, name, list] => {
            let page = text::page(&list_name(list), name, &read(category, program, list)?);
            let written = io::stdout().write_all(page.as_bytes());
            written.map_err(|error| error.to_string())
        }
        [program, name, list, out] => {
            let picture = svg::picture(&list_name(list), name, &read(category, program, list)?);
            let picture = picture.map_err(|error| error.to_string())?;
            fs::write(out, picture).map_err(|error| format!("{out}: {error}"))?;
            println!("wrote {out}");
            Ok(())
        }
        _ => Err(USE.into()),
    }
}

fn main() {
    let mut words = words();
    let shown = take_category(&mut words).and_then(|category| {
        let words: Vec<&str> = words.iter().map(String::as_str).collect();
        show(category, &words)
    });
    if let Err(error) = shown {
        eprintln!("view: {error}");
        exit(1)
    }
}
