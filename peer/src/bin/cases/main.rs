//! Writes the lists with their outputs, each where it stands, and the README of `cases`, after
//! holding each against what it must show. With `--check` it compares the files instead of writing
//! them.

mod food_lines;
mod list;
mod place;
mod plain;
mod residue_lines;
mod rows;
mod standard;
mod stories;
mod words;

use std::fmt::Write as _;
use std::path::Path;
use std::{fs, io};

use peer::category::Category;
use peer::charts::highest_run;
use peer::digits::hexadecimal;
use peer::program::{lines as split, read_back, stream, transcript, STATUS_DIGITS};
use peer::single::standardize;
use peer::unit::Unit;

use list::Case;
use place::paths;
use rows::Row;
use stories::{Hidden, HIDDEN};

/// A file, by its path from the repository's root.
struct File {
    path: String,
    bytes: Vec<u8>,
}

fn list_files(name: &str, input: Vec<u8>, output: Vec<u8>) -> [File; 2] {
    let [list, answers] = paths(name);
    [File { path: list, bytes: input }, File { path: answers, bytes: output }]
}

fn program_files(case: &Case) -> [File; 2] {
    let Case { category, name, input, output, .. } = case;
    let slow = transcript(*category, input);
    assert_eq!(String::from_utf8(slow).as_ref(), Ok(output), "{name}, by search");
    let mut fast = Vec::new();
    stream(*category, &mut &input[..], &mut fast).expect("memory takes all");
    assert_eq!(String::from_utf8(fast).as_ref(), Ok(output), "{name}, in one pass");
    list_files(name, input.clone(), output.clone().into())
}

/// The program shows no chart that is not over, so these are held against the charts.
fn assert_hidden(case: &Case) {
    for Hidden { lines, chart, value, .. } in HIDDEN.iter().filter(|own| own.list == case.name) {
        let mut unit = Unit::new(case.category);
        for line in split(&case.input).take(*lines) {
            unit.take(line);
        }
        let own: Vec<i32> = unit.stretch().iter().map(|sample| sample[*chart]).collect();
        let highest = highest_run(&own).map(|run| run.sum);
        assert_eq!(highest, Some(*value), "{}, chart {chart} after {lines} lines", case.name);
    }
}

fn lines_files(name: &str, category: Category, rows: &[Row]) -> [File; 2] {
    let (mut input, mut output) = (Vec::new(), Vec::new());
    for Row { text, shows, refusal } in rows {
        let answer = match refusal {
            0 => text.clone(),
            _ => hexadecimal(*refusal).to_vec(),
        };
        assert_eq!(read_back(category, text), answer, "{shows}");
        for (whole, line) in [(&mut input, text), (&mut output, &answer)] {
            whole.extend(line);
            whole.push(b'\n');
        }
    }
    list_files(name, input, output)
}

fn standard_files(rows: &[standard::Row]) -> [File; 2] {
    let (mut input, mut output) = (String::new(), String::new());
    for row in rows {
        let answer = standardize(row.text.as_bytes());
        assert!([standard::UNSAID, &answer].contains(&row.answer), "{}: {answer}", row.shows);
        input += &format!("{}\n", row.text);
        output += &format!("{answer}\n");
    }
    list_files("standard", input.into(), output.into())
}

fn word_files() -> [File; 2] {
    let (input, output) = words::texts(&words::rows());
    list_files("word", input, output.into())
}

fn lines_table(text: &mut String, rows: &[Row]) {
    for (number, row) in (1..).zip(rows) {
        let outcome = match row.refusal {
            0 => "written back".to_string(),
            refusal => format!("{refusal:02x}"),
        };
        let _ = writeln!(text, "| {number} | {outcome} | {} |", row.shows.replace('|', "\\|"));
    }
}

fn readme(cases: &[Case], food: &[Row], residue: &[Row], standard: &[standard::Row]) -> String {
    let mut text = String::from(README_START);
    for Case { name, shows, output, .. } in cases {
        let status = output.lines().rfind(|line| line.len() == STATUS_DIGITS).unwrap_or_default();
        let [list, _] = paths(name);
        let _ = writeln!(text, "| {name} | `{list}` | {status} | {shows} |");
    }
    text += README_LINES;
    lines_table(&mut text, food);
    text += README_RESIDUE_LINES;
    lines_table(&mut text, residue);
    text += README_STANDARD;
    for (number, row) in (1..).zip(standard) {
        let answer = standardize(row.text.as_bytes());
        let _ = writeln!(text, "| {number} | {} | {answer} | {} |", row.text, row.shows);
    }
    text += README_WORD;
    for (number, (word, shows)) in (1..).zip(words::shown()) {
        let _ = writeln!(text, "| {number} | {word:016x} | {shows} |");
    }
    text
}

const README_START: &str = "\
# Lists and their outputs

A list, `stdin`, goes in, and `stdout` beside it must come out. A list that a crate runs stands
with that crate and nowhere else; here are those that none runs. `cargo run --release --offline
--bin cases` in `peer` writes all of them, and this file; each output is worked out by hand beside
its list in `src/bin/cases` and held against both modes of the peer, but for the rows of
`standard` for which no short sum does, which are the peer's exact integers alone, and for those
of `word` after the first fourteen, which are what their characters stand for, one by one. With
`-- --check` it compares the files instead of writing them.

## For the programs

The lists whose names begin with `residue` are for `check_residue`, the others for `check_sample`.

| list | file | status line at the end | what it shows |
|---|---|---|---|
";

const README_LINES: &str = "
## lines: reading a food line alone

In `crates/case_food_line`. For each line the number of its refusal, 01 to 07, or the line written back.

| line | outcome | what it shows |
|---|---|---|
";

const README_RESIDUE_LINES: &str = "
## residue-lines: reading a residue line alone

In `crates/case_residue_line`, for compound 4. The refusals here are 01 to 04, 0e (14), 0f (15) and
07, and looked for in this order.

| line | outcome | what it shows |
|---|---|---|
";

const README_STANDARD: &str = "
## standard: standardizing alone

In `crates/case_standard`. A row is 12 digits: product 1 byte, analyte 1, mean 2, reading in
hundredths 2. Answered are the value s, d and the contributions P, N, V, D, or the refusal. No row
has an analyte above 3, for which document 01 has no word.

| row | digits | s d P N V D | what it shows |
|---|---|---|---|
";

const README_WORD: &str = "
## word: the step alone

In `crates/case_word`. A row is the eight characters of a word, whatever bytes they are, and a
newline; below they stand in hexadecimal. Answered are the four bytes that they write, as eight
digits, or the refusal, 2. After the rows below come 2,048: each of the 256 bytes in each of the
eight places, first place first, among digits that change from row to row.

| row | word | what it shows |
|---|---|---|
";

fn main() -> io::Result<()> {
    let cases = stories::cases();
    let (food, residue) = (food_lines::rows(), residue_lines::rows());
    let standard = standard::rows();
    let mut files: Vec<File> = cases.iter().flat_map(program_files).collect();
    cases.iter().for_each(assert_hidden);
    files.extend(lines_files("lines", Category::Food, &food));
    files.extend(lines_files("residue-lines", Category::tested_residue(), &residue));
    files.extend(standard_files(&standard));
    files.extend(word_files());
    let readme = readme(&cases, &food, &residue, &standard).into();
    files.push(File { path: "peer/cases/README.md".to_string(), bytes: readme });

    let root = Path::new(env!("CARGO_MANIFEST_DIR")).join("..");
    let check = std::env::args().nth(1).as_deref() == Some("--check");
    for File { path, bytes } in &files {
        let at = root.join(path);
        if check {
            assert!(fs::read(&at)? == *bytes, "{path} is not what it should be");
        } else {
            fs::write(&at, bytes)?;
        }
    }
    println!("{} files {}", files.len(), if check { "as they should be" } else { "written" });
    Ok(())
}
