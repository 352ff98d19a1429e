//! Gives lists of a seed to the two programs and to the peer and compares whole outputs.
//! `differ SEED COUNT PROGRAM RESIDUE_PROGRAM`, each program with its arguments in one word.

use std::collections::BTreeMap;
use std::fs::{self, File};
use std::io::{self, IsTerminal, Write};
use std::path::PathBuf;
use std::process::exit;
use std::time::Instant;

use peer::arguments::{command, usage, words};
use peer::category::Category;
use peer::lists::list;
use peer::program::{lines, transcript, STATUS_DIGITS};

struct Program {
    category: Category,
    /// With its arguments, between spaces.
    command: String,
    /// Where a list lies while the program reads it.
    list: PathBuf,
}

impl Program {
    /// What it prints for a list, or how it ended.
    fn output(&self, input: &[u8]) -> io::Result<Vec<u8>> {
        fs::write(&self.list, input)?;
        let ended = command(&self.command).stdin(File::open(&self.list)?).output()?;
        let mut output = ended.stdout;
        if !ended.status.success() {
            output.extend(format!("[{}]", ended.status).into_bytes());
        }
        Ok(output)
    }

    fn differs(&self, input: &[u8]) -> io::Result<bool> {
        Ok(self.output(input)? != transcript(self.category, input))
    }

    /// Takes lines away, first many at once, as long as the outputs still differ.
    fn shortest_that_differs(&self, input: &[u8]) -> io::Result<Vec<u8>> {
        let mut kept: Vec<&[u8]> = input.split_inclusive(|&byte| byte == b'\n').collect();
        let mut size = kept.len();
        while size > 0 {
            let mut at = 0;
            while at < kept.len() {
                let end = (at + size).min(kept.len());
                let fewer = [&kept[..at], &kept[end..]].concat();
                if self.differs(&fewer.concat())? {
                    kept = fewer;
                } else {
                    at = end;
                }
            }
            size /= 2;
        }
        Ok(kept.concat())
    }

    fn show_difference(&self, input: &[u8]) -> io::Result<()> {
        let short = self.shortest_that_differs(input)?;
        fs::write(&self.list, &short)?;
        println!("The list, cut down, is in {}:", self.list.display());
        println!("{}", String::from_utf8_lossy(&short));
        let (theirs, ours) = (self.output(&short)?, transcript(self.category, &short));
        println!("The program prints:\n{}", String::from_utf8_lossy(&theirs));
        println!("The peer prints:\n{}", String::from_utf8_lossy(&ours));
        Ok(())
    }

    /// How many of the lists it failed.
    fn failed(&self, seed: u64, count: u64) -> io::Result<u64> {
        println!("{} against the peer, seed {seed}", self.command);
        let start = Instant::now();
        let (mut failed, mut line_count, mut tally) = (0, 0, Tally::default());
        for number in 0..count {
            let input = list(self.category, seed, number);
            let ours = transcript(self.category, &input);
            if self.output(&input)? != ours {
                failed += 1;
                if failed == 1 {
                    println!("\nFirst difference: seed {seed}, list {number}.");
                    self.show_difference(&input)?;
                }
            }
            line_count += lines(&input).count();
            tally.add(&ours);
            progress(number + 1, count, failed, line_count, start);
        }
        println!();
        tally.print();
        if failed == 0 {
            fs::remove_file(&self.list)?;
        }
        Ok(failed)
    }
}

/// How often each event, refusal and chart came up, and each stage at an empty line and at the end.
#[derive(Default)]
struct Tally(BTreeMap<String, usize>);

impl Tally {
    fn add(&mut self, output: &[u8]) {
        let printed: Vec<&[u8]> = lines(output).collect();
        let end = printed.iter().rposition(|line| line.len() == STATUS_DIGITS);
        for (place, line) in printed.into_iter().map(String::from_utf8_lossy).enumerate() {
            let met = match (line.len(), &line[..2]) {
                (4, "00") => format!("refused {}", &line[2..]),
                (4, event) => format!("event {event}"),
                (STATUS_DIGITS, stage) if Some(place) == end => format!("ended in stage {stage}"),
                (STATUS_DIGITS, stage) => format!("empty line in stage {stage}"),
                (_, chart) => format!("shown chart {chart}"),
            };
            *self.0.entry(met).or_default() += 1;
        }
    }

    fn print(&self) {
        let parts: Vec<String> =
            self.0.iter().map(|(met, times)| format!("{met}: {times}")).collect();
        println!("Met by the lists: {}.", parts.join(", "));
    }
}

fn progress(done: u64, count: u64, failed: u64, lines: usize, start: Instant) {
    let seconds = start.elapsed().as_secs_f64();
    let text = format!("{done} of {count} lists, {lines} lines, {failed} failed, {seconds:.0} s");
    if io::stdout().is_terminal() {
        print!("\r{text}");
        let _ = io::stdout().flush();
    } else if done.is_multiple_of((count / 10).max(1)) {
        println!("{text}");
    }
}

fn main() -> io::Result<()> {
    const USE: &str = "differ SEED COUNT PROGRAM RESIDUE_PROGRAM";
    let words = words();
    let [seed, count, food, residue] = &words[..] else { usage("four words are wanted", USE) };
    let (Ok(seed), Ok(count)) = (seed.parse::<u64>(), count.parse::<u64>()) else {
        usage("seed and count are whole numbers", USE)
    };
    let list =
        |name: &str| std::env::temp_dir().join(format!("peer-{name}-list-{}", std::process::id()));
    let programs = [
        Program { category: Category::Food, command: food.clone(), list: list("food") },
        Program {
            category: Category::tested_residue(),
            command: residue.clone(),
            list: list("residue"),
        },
    ];
    let mut failed = 0;
    for program in &programs {
        failed += program.failed(seed, count)?;
    }
    println!("{} passed, {failed} failed", programs.len() as u64 * count - failed);
    if failed > 0 {
        exit(1)
    }
    Ok(())
}
