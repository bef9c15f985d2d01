//! Holds programs beside each other: the same commands to each, their dumps compared line by line.

mod compare;
mod sides;
mod suites;

use compare::{
    keeps_told_length, listed_slots, named_by_rust, named_here, nothing_behind, without_kept_length, Answers, LookedAt, Table,
    Verdict,
};
use oracle_format::generator::{Run, FAMILIES};
use oracle_format::text::{bytes_of_hex, fnv, hex, FNV_START};
use sides::Program;
use std::collections::BTreeMap;
use std::io::Write;
use suites::{line, thousand, SUITES};

const USAGE: &str = "usage: beside run RUST-SIDE MODEL-SIDE THOUSANDS [PROGRAM]
       beside commands SUITE
       beside sample COUNT      commands from every suite, in even steps
       beside digests THOUSANDS digest commands, that many thousands of each family
       beside expand COMMAND    the single commands of a digest command";

const FAMILY: [&str; FAMILIES as usize] =
    ["headers read", "beacons read", "payload views", "header records", "beacon records", "parts at places"];

fn main() {
    let arguments: Vec<String> = std::env::args().skip(1).collect();
    let words: Vec<&str> = arguments.iter().map(String::as_str).collect();
    match words[..] {
        ["run", rust, model, thousands] => run(rust, model, number(thousands), None),
        ["run", rust, model, thousands, program] => run(rust, model, number(thousands), Some(program)),
        ["commands", name] => commands(name),
        ["sample", count] => sample(number(count) as usize),
        ["digests", thousands] => digests(number(thousands)),
        ["expand", command] => expand(command),
        _ => usage(),
    }
}

fn usage() -> ! {
    eprintln!("{USAGE}");
    std::process::exit(2)
}

fn number(word: &str) -> u64 {
    word.parse().unwrap_or_else(|_| usage())
}

fn print(text: &[u8]) {
    if std::io::stdout().write_all(text).is_err() {
        std::process::exit(0);
    }
}

fn commands(name: &str) {
    let suite = SUITES.iter().find(|suite| suite.name == name).unwrap_or_else(|| usage());
    let mut text = Vec::new();
    (suite.make)(&mut |kind, bytes| {
        text.extend_from_slice(&line(kind, bytes));
        text.push(b'\n');
        if 1 << 16 < text.len() {
            print(&text);
            text.clear();
        }
    });
    print(&text);
}

/// From each suite whose answers the Rust has, as many commands as its share of a count, in even steps; the smaller suites get more than their share.
fn sample(count: usize) {
    let suites: Vec<_> = SUITES.iter().filter(|suite| !["eight", "unused", "kept"].contains(&suite.name)).collect();
    let share = count / suites.len();
    let mut text = Vec::new();
    for suite in suites {
        let mut total = 0;
        (suite.make)(&mut |_, _| total += 1);
        let mut at = 0;
        (suite.make)(&mut |kind, bytes| {
            if total <= share || at * share / total != (at + 1) * share / total {
                text.extend_from_slice(&line(kind, bytes));
                text.push(b'\n');
            }
            at += 1;
        });
    }
    print(&text);
}

fn digests(thousands: u64) {
    for number in 0..thousands {
        for family in 0..FAMILIES {
            print(&[&line(b'd', &thousand(family, number))[..], b"\n"].concat());
        }
    }
}

/// The commands that a digest command, given with or without its `d` and tab, stands for.
fn single(bytes: &[u8]) -> Vec<Vec<u8>> {
    let mut lines = Vec::new();
    let mut made = Vec::new();
    let mut run = Run::of_command(bytes).unwrap_or_else(|| usage());
    while let Some(kind) = run.next_command(&mut made) {
        lines.push(line(kind, &made));
    }
    lines
}

/// The digest of the dump lines that were answered to commands, as a dump line.
fn digest(commands: &[Vec<u8>], answers: &[Vec<u8>]) -> Vec<u8> {
    let lines = commands.iter().zip(answers).map(|(command, answer)| without_kept_length(command, answer));
    let value = lines.fold(FNV_START, |value, line| fnv(fnv(value, &line), b"\n"));
    let mut text = Vec::new();
    hex(&value.to_be_bytes(), &mut text);
    text
}

fn expand(command: &str) {
    let digits = command.trim_start_matches("d\t");
    let bytes = bytes_of_hex(digits.as_bytes()).unwrap_or_else(|| usage());
    for line in single(&bytes) {
        print(&[&line[..], b"\n"].concat());
    }
}

/// The programs of a run, the Rust and the model in both forms.
struct Sides {
    rust: Program,
    model: Program,
    rust_folded: Program,
    model_folded: Program,
    program: Option<Program>,
}

impl Sides {
    /// Compares one batch of single commands.
    fn compare(&mut self, lines: &[Vec<u8>], table: &mut Table) {
        let asked: Vec<_> = lines.iter().map(|line| named_by_rust(line)).collect();
        let rust: Vec<_> = lines.iter().zip(self.rust.ask(&asked)).map(|(line, answer)| named_here(line, &answer)).collect();
        let model = self.model.ask(lines);
        let program = self.program.as_mut().map(|program| program.ask(lines));
        let alone: Vec<_> = lines.iter().filter(|line| nothing_behind(line)).cloned().collect();
        let with_more: BTreeMap<_, _> = alone.iter().zip(self.rust_folded.ask(&alone)).collect();
        for (index, command) in lines.iter().enumerate() {
            let rust_with_more = with_more.get(command).map(|answer| &answer[..]);
            let answers = Answers { command, rust: &rust[index], model: &model[index], rust_with_more };
            table.pair(&answers);
            if let Some(program) = &program {
                table.program(&answers, &program[index]);
            }
        }
    }

    /// For each thousand what was looked at, if the programs give one digest and all kept lengths agree; a program of ours is given the
    /// single commands.
    fn digests_agree(&mut self, thousands: &[Vec<u8>]) -> Vec<Option<LookedAt>> {
        let lines: Vec<_> = thousands.iter().map(|bytes| line(b'd', bytes)).collect();
        let rust = self.rust_folded.ask(&lines);
        let model = self.model_folded.ask(&lines);
        (0..lines.len())
            .map(|index| {
                let commands = single(&thousands[index]);
                let ours = self.program.as_mut().map(|program| program.ask(&commands));
                let given = ours.as_ref().map_or(true, |ours| digest(&commands, ours) == rust[index]);
                if rust[index] == model[index] && given {
                    self.look_at(&commands, ours)
                } else {
                    None
                }
            })
            .collect()
    }

    /// What these commands have of kept lengths and listed slots, if the model keeps the length of each header and the program's answers are the
    /// model's: a digest holds no kept length.
    fn look_at(&mut self, commands: &[Vec<u8>], ours: Option<Vec<Vec<u8>>>) -> Option<LookedAt> {
        if commands.iter().all(|command| !b"hgbGB".contains(&command[0])) {
            return Some(LookedAt::default());
        }
        let model = self.model_folded.ask(commands);
        let answered = || commands.iter().zip(&model);
        let kept = answered().filter_map(|(command, answer)| keeps_told_length(command, answer));
        let (right, wrong): (Vec<bool>, Vec<bool>) = kept.partition(|right| *right);
        let directions = answered()
            .filter(|(command, _)| !nothing_behind(command))
            .map(|(command, answer)| listed_slots(command, answer))
            .sum();
        let counts = LookedAt { kept_lengths: right.len() as u64, directions };
        (wrong.is_empty() && ours.map_or(true, |ours| ours == model)).then(|| counts)
    }

    /// A smaller command with a difference of the same sort, as long as one is found. The model knows what a command is.
    fn shrink(&mut self, start: &[u8], by_program: bool) -> Vec<u8> {
        let mut best = start.to_vec();
        'smaller: loop {
            for candidate in compare::smaller(&best) {
                let mut table = Table::default();
                self.compare(&[candidate.clone()], &mut table);
                if table.has_unlisted(by_program) && self.model.ask(&[candidate.clone()]) != [b"bad"] {
                    best = candidate;
                    continue 'smaller;
                }
            }
            return best;
        }
    }
}

fn run(rust: &str, model: &str, thousands: u64, program: Option<&str>) {
    let mut sides = Sides {
        rust: Program::start(rust, &["--raw"]),
        model: Program::start(model, &["--raw"]),
        rust_folded: Program::start(rust, &[]),
        model_folded: Program::start(model, &[]),
        program: program.map(|program| Program::start(program, &[])),
    };
    let mut whole = Table::default();
    println!("{:<14} {:>9} {:>9} {:>9} {:>8} {:>9}  what", "suite", "commands", "equal", "listed", "not had", "unlisted");
    for suite in SUITES {
        let mut table = Table::default();
        let mut lines = Vec::new();
        (suite.make)(&mut |kind, bytes| {
            lines.push(line(kind, bytes));
            if lines.len() == 4096 {
                sides.compare(&lines, &mut table);
                lines.clear();
            }
        });
        sides.compare(&lines, &mut table);
        table.row(suite.name, suite.what);
        whole.add(table);
    }
    for family in 0..FAMILIES {
        let mut table = Table::default();
        let numbers: Vec<u64> = (0..thousands).collect();
        for batch in numbers.chunks(64) {
            let thousands: Vec<_> = batch.iter().map(|number| thousand(family, *number)).collect();
            for (agreed, number) in sides.digests_agree(&thousands).into_iter().zip(batch) {
                let single = single(&thousand(family, *number));
                if let Some(counts) = agreed {
                    table.looked_at(counts);
                    // A GTS field with nothing behind it has a digest only with a byte there: it is looked at by itself.
                    let alone: Vec<_> = single.into_iter().filter(|line| nothing_behind(line)).collect();
                    table.equal(1000 - alone.len() as u64);
                    sides.compare(&alone, &mut table);
                } else {
                    let before = table.unlisted();
                    sides.compare(&single, &mut table);
                    if table.unlisted() == before {
                        table.digest_alone(&line(b'd', &thousand(family, *number)));
                    }
                }
            }
        }
        table.row("random", FAMILY[family as usize]);
        whole.add(table);
    }
    whole.row("all", if program.is_some() { "Rust, model and program" } else { "Rust and model" });
    for (by_program, found) in [(false, whole.worst(false)), (true, whole.worst(true))] {
        if let Some(found) = found {
            let smallest = sides.shrink(&found, by_program);
            let mut shown = Table::default();
            sides.compare(&[smallest], &mut shown);
            whole.add_smallest(shown);
        }
    }
    let verdict = whole.tell(program.is_some());
    std::process::exit(if verdict == Verdict::Agree { 0 } else { 1 });
}
