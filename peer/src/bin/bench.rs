//! Times a program against the peer's fast mode: `bench PROGRAM PEER [LINES] [ROUNDS]`.
//! One after the other on the same input, the best of all rounds; then instructions by callgrind.

use std::fs::{self, File};
use std::io;
use std::path::{Path, PathBuf};
use std::process::{exit, Command, Stdio};
use std::time::{Duration, Instant};

use peer::lists::long;
use peer::program::lines;

const SEED: u64 = 439;

struct Contestant {
    name: &'static str,
    path: String,
    arguments: &'static [&'static str],
}

impl Contestant {
    fn command(&self, input: &Path) -> io::Result<Command> {
        let mut command = Command::new(&self.path);
        command.args(self.arguments).stdin(File::open(input)?);
        Ok(command)
    }

    fn output(&self, input: &Path) -> io::Result<Vec<u8>> {
        Ok(self.command(input)?.output()?.stdout)
    }

    fn time(&self, input: &Path) -> io::Result<Duration> {
        let mut command = self.command(input)?;
        let start = Instant::now();
        let status = command.stdout(Stdio::null()).status()?;
        assert!(status.success(), "{} ended with {status}", self.name);
        Ok(start.elapsed())
    }

    /// Instructions by callgrind, where valgrind is there.
    fn instructions(&self, input: &Path) -> Option<u64> {
        let mut command = Command::new("valgrind");
        command.args(["--tool=callgrind", "--callgrind-out-file=/dev/null"]);
        command.arg(&self.path).args(self.arguments).stdin(File::open(input).ok()?);
        let said = String::from_utf8(command.output().ok()?.stderr).ok()?;
        let collected = said.lines().find(|line| line.contains("Collected :"))?;
        collected.split_whitespace().last()?.parse().ok()
    }

    /// By two inputs, so that what is done once does not count.
    fn instructions_per_line(&self, short: &Path, longer: &Path, more_lines: u64) -> Option<f64> {
        let more = self.instructions(longer)?.checked_sub(self.instructions(short)?)?;
        Some(more as f64 / more_lines as f64)
    }
}

fn write_input(folder: &Path, line_count: usize) -> io::Result<PathBuf> {
    let path = folder.join(format!("bench-{line_count}.stdin"));
    let input = long(SEED, line_count);
    assert_eq!(lines(&input).count(), line_count);
    fs::write(&path, input)?;
    Ok(path)
}

fn main() -> io::Result<()> {
    let words: Vec<String> = std::env::args().skip(1).collect();
    let [program, peer, numbers @ ..] = &words[..] else {
        eprintln!("use: bench PROGRAM PEER [LINES] [ROUNDS]");
        exit(2)
    };
    let number =
        |at: usize, default: usize| numbers.get(at).map_or(Ok(default), |word| word.parse());
    let (Ok(line_count), Ok(rounds)) = (number(0, 1_000_000), number(1, 9)) else {
        eprintln!("bench: lines and rounds are whole numbers");
        exit(2)
    };
    let contestants = [
        Contestant { name: "program", path: program.clone(), arguments: &[] },
        Contestant { name: "peer --fast", path: peer.clone(), arguments: &["--fast"] },
    ];
    let folder = Path::new(env!("CARGO_MANIFEST_DIR")).join("target");
    let input = write_input(&folder, line_count)?;
    println!("{line_count} lines, {} bytes", fs::metadata(&input)?.len());
    let [theirs, ours] = [contestants[0].output(&input)?, contestants[1].output(&input)?];
    assert!(theirs == ours, "the outputs differ");

    print_speeds(&contestants, &input, line_count, rounds)?;
    print_instructions(&contestants, &folder)
}

fn print_speeds(
    both: &[Contestant; 2],
    input: &Path,
    line_count: usize,
    rounds: usize,
) -> io::Result<()> {
    let best = time_in_turn(both, input, rounds)?;
    let speed = best.map(|time| line_count as f64 / time.as_secs_f64());
    for (contestant, (time, speed)) in both.iter().zip(best.iter().zip(speed)) {
        let milliseconds = time.as_secs_f64() * 1e3;
        println!("{:12} {milliseconds:7.1} ms, {speed:10.0} lines a second", contestant.name);
    }
    println!("ratio        {:.2} (above 1 the program is faster)", speed[0] / speed[1]);
    Ok(())
}

fn time_in_turn(both: &[Contestant; 2], input: &Path, rounds: usize) -> io::Result<[Duration; 2]> {
    let mut best = [Duration::MAX; 2];
    for round in 1..=rounds {
        for (best, contestant) in best.iter_mut().zip(both) {
            *best = contestant.time(input)?.min(*best);
        }
        let [program, peer] = best.map(|time| time.as_secs_f64() * 1e3);
        eprintln!("round {round} of {rounds}: best {program:.1} ms and {peer:.1} ms");
    }
    Ok(best)
}

fn print_instructions(both: &[Contestant; 2], folder: &Path) -> io::Result<()> {
    let (short, longer) = (write_input(folder, 10_000)?, write_input(folder, 110_000)?);
    for contestant in both {
        let said = match contestant.instructions_per_line(&short, &longer, 100_000) {
            Some(count) => format!("{count:7.1} instructions a line"),
            None => "instructions not counted: no valgrind, or it does not run there".into(),
        };
        println!("{:12} {said}", contestant.name);
    }
    Ok(())
}
