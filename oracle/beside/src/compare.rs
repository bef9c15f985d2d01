//! Equal, listed or unlisted: what documents 01 and 02 say of a difference.

use oracle_format::text::{bytes_of_hex, hex};
use oracle_format::{self as format, asks_with_nothing_behind, blot_kept_length, kept_length_place};
use std::collections::BTreeMap;

#[derive(PartialEq)]
pub enum Verdict {
    Agree,
    Differ,
}

#[derive(Clone)]
struct Example {
    command: Vec<u8>,
    rust: Vec<u8>,
    model: Vec<u8>,
    program: Option<Vec<u8>>,
}

impl Example {
    /// Shorter first, then by its digits; what is read or written before the room.
    fn rank(&self) -> (usize, &[u8], &[u8]) {
        let cut = self.command.len().min(2 + 22);
        let (prefix, rest) = self.command.split_at(cut);
        (self.command.len(), rest, prefix)
    }
}

#[derive(Default)]
struct Class {
    count: u64,
    smallest: Option<Example>,
}

impl Class {
    fn add(&mut self, count: u64, example: Option<Example>) {
        self.count += count;
        if let Some(example) = example {
            if self.smallest.as_ref().map_or(true, |smallest| example.rank() < smallest.rank()) {
                self.smallest = Some(example);
            }
        }
    }
}

/// Counts over some commands, and the smallest example of each class of difference.
#[derive(Default)]
pub struct Table {
    commands: u64,
    equal: u64,
    not_had: u64,
    looked_at: LookedAt,
    listed: BTreeMap<String, Class>,
    unlisted: BTreeMap<String, Class>,
}

/// How many kept lengths were held beside the model's, and how many directions of listed slots beside the Rust's, its names exchanged.
#[derive(Clone, Copy, Default)]
pub struct LookedAt {
    pub kept_lengths: u64,
    pub directions: u64,
}

impl std::ops::AddAssign for LookedAt {
    fn add_assign(&mut self, other: LookedAt) {
        self.kept_lengths += other.kept_lengths;
        self.directions += other.directions;
    }
}

const BETWEEN: &str = "Rust against model";
const PROGRAM: &str = "program";

fn fields(line: &[u8]) -> Vec<&[u8]> {
    line.split(|byte| *byte == b'\t').collect()
}

/// Whether the dump of this command ends in the three fields of a writing: number, length, buffer.
fn writes(command: &[u8], answer: &[&[u8]]) -> bool {
    match command[0] {
        b'A'..=b'Z' => 3 <= answer.len(),
        b't' | b'v' | b'm' | b'o' | b'k' | b'z' | b'p' | b'd' => false,
        _ => 5 <= answer.len(),
    }
}

/// A raw dump line in the folded form.
fn folded(command: &[u8], answer: &[u8]) -> Vec<u8> {
    let mut parts = fields(answer);
    if writes(command, &parts) && parts[parts.len() - 3] != b"0" {
        parts.pop();
    }
    if parts[0] == b"5" && 2 <= parts.len() && !command[0].is_ascii_uppercase() {
        parts[0] = b"4";
    }
    parts.join(&b'\t')
}

fn written_number<'a>(command: &[u8], answer: &'a [u8]) -> Option<&'a [u8]> {
    let parts = fields(answer);
    writes(command, &parts).then(|| parts[parts.len() - 3])
}

/// Equal as far as the Rust could be asked: a last field `?` stands for anything.
fn equal_as_asked(rust: &[u8], other: &[u8]) -> Option<bool> {
    match rust.split_last() {
        Some((b'?', asked)) => Some(other.starts_with(asked)),
        _ => None,
    }
}

fn kept(command: &[u8], answer: &[u8]) -> bool {
    let parts = fields(answer);
    !writes(command, &parts) || parts[parts.len() - 3] == b"0" || parts[parts.len() - 1].chunks(2).all(|byte| byte == b"a5")
}

/// Whether a command line reads a GTS field alone with nothing behind it.
pub fn nothing_behind(command: &[u8]) -> bool {
    command[0] == b'g' && bytes_of_hex(&command[2..]).map_or(false, |bytes| asks_with_nothing_behind(&bytes))
}

/// An answer with 0 in place of a read header's kept length, as the Rust has it, which keeps none.
pub fn without_kept_length(command: &[u8], answer: &[u8]) -> Vec<u8> {
    let mut answer = answer.to_vec();
    blot_kept_length(command[0], &mut answer);
    answer
}

/// A command as the Rust is asked it: with the names of listed slots' directions exchanged in a record that is given.
pub fn named_by_rust(command: &[u8]) -> Vec<u8> {
    let (start, digits) = command.split_at(2);
    let Some(mut bytes) = bytes_of_hex(digits) else { return command.to_vec() };
    format::exchange_in_command(command[0], &mut bytes);
    let mut line = start.to_vec();
    hex(&bytes, &mut line);
    line
}

/// The Rust's answer with those names exchanged in the record that it tells.
pub fn named_here(command: &[u8], answer: &[u8]) -> Vec<u8> {
    let mut answer = answer.to_vec();
    format::exchange_in_answer(command[0], &mut answer);
    answer
}

/// How many slots are listed in the record that was read or written with this answer.
pub fn listed_slots(command: &[u8], answer: &[u8]) -> u64 {
    let bytes = bytes_of_hex(&command[2..]).unwrap_or_default();
    format::listed_slots(command[0], &bytes, answer).map_or(0, u64::from)
}

/// Whether the length that a read header keeps is the length that reading told; none where no header was read.
pub fn keeps_told_length(command: &[u8], answer: &[u8]) -> Option<bool> {
    let kept = kept_length_place(command[0], answer)?;
    let told = std::str::from_utf8(fields(answer)[1]).ok().and_then(|told| told.parse::<u8>().ok());
    Some(bytes_of_hex(&answer[kept]).map_or(false, |kept| Some(kept[0]) == told))
}

/// What was answered to a command, raw but for the last.
pub struct Answers<'a> {
    pub command: &'a [u8],
    /// With the names of listed slots' directions exchanged.
    pub rust: &'a [u8],
    pub model: &'a [u8],
    /// The Rust's answer to a GTS field alone, with a byte behind it where there is none.
    pub rust_with_more: Option<&'a [u8]>,
}

impl Table {
    pub fn equal(&mut self, count: u64) {
        self.commands += count;
        self.equal += count;
    }

    /// Of those equal, so much was looked at by itself.
    pub fn looked_at(&mut self, counts: LookedAt) {
        self.looked_at += counts;
    }

    /// The Rust's answer against the model's, whose kept length of a read header is held beside the length that both tell.
    pub fn pair(&mut self, answers: &Answers) {
        let Answers { command, rust, model, rust_with_more } = *answers;
        self.commands += 1;
        let example = || Some(Example { command: command.to_vec(), rust: rust.to_vec(), model: model.to_vec(), program: None });
        let keeps = keeps_told_length(command, model);
        let directions = listed_slots(command, rust_with_more.unwrap_or(rust));
        self.looked_at += LookedAt { kept_lengths: keeps.is_some() as u64, directions };
        let model = &without_kept_length(command, model)[..];
        if !kept(command, model) || keeps == Some(false) || model == b"panic" || model == b"bad" {
            self.unlisted.entry(format!("model alone, kind {}", command[0] as char)).or_default().add(1, example());
        } else if let Some(more) = rust_with_more {
            let as_listed = rust == b"1\t0" && more == folded(command, model);
            let (classes, name) =
                if as_listed { (&mut self.listed, "nothing behind a GTS field") } else { (&mut self.unlisted, BETWEEN) };
            classes.entry(format!("{name}, kind {}", command[0] as char)).or_default().add(1, example());
        } else if rust == model {
            self.equal += 1;
        } else if let Some(equal) = equal_as_asked(rust, model) {
            if equal {
                self.not_had += 1;
            } else {
                self.unlisted.entry(format!("{BETWEEN}, kind {}", command[0] as char)).or_default().add(1, example());
            }
        } else if written_number(command, model) == Some(b"8") {
            self.listed.entry(format!("8, kind {}", command[0] as char)).or_default().add(1, example());
        } else if folded(command, rust) != folded(command, model) {
            self.unlisted.entry(format!("{BETWEEN}, kind {}", command[0] as char)).or_default().add(1, example());
        } else if kept(command, rust) {
            self.listed.entry(format!("5 is 4 in the Rust, kind {}", command[0] as char)).or_default().add(1, example());
        } else {
            self.listed.entry(format!("buffer after a refusal, kind {}", command[0] as char)).or_default().add(1, example());
        }
    }

    /// The program's answer against the Rust's, but for a read header's kept length, as far as the Rust could be asked and the record is free of 8;
    /// and all of it against the model's.
    pub fn program(&mut self, answers: &Answers, program: &[u8]) {
        let Answers { command, rust, model, rust_with_more } = *answers;
        let asked = without_kept_length(command, program);
        let by_rust = match (rust_with_more, equal_as_asked(rust, &asked)) {
            (Some(more), _) => more == asked,
            (None, Some(equal)) => equal,
            (None, None) => written_number(command, model) == Some(b"8") || folded(command, rust) == asked,
        };
        if !by_rust || folded(command, model) != program {
            let (rust, model, program) = (rust.to_vec(), model.to_vec(), Some(program.to_vec()));
            let example = Example { command: command.to_vec(), rust, model, program };
            self.unlisted.entry(format!("{PROGRAM}, kind {}", command[0] as char)).or_default().add(1, Some(example));
        }
    }

    /// A digest differs and none of its commands does.
    pub fn digest_alone(&mut self, command: &[u8]) {
        let example = Example { command: command.to_vec(), rust: Vec::new(), model: Vec::new(), program: None };
        self.unlisted.entry("digest alone".to_string()).or_default().add(1, Some(example));
    }

    pub fn unlisted(&self) -> u64 {
        self.unlisted.values().map(|class| class.count).sum()
    }

    pub fn has_unlisted(&self, by_program: bool) -> bool {
        self.worst(by_program).is_some()
    }

    /// The smallest command with an unlisted difference.
    pub fn worst(&self, by_program: bool) -> Option<Vec<u8>> {
        self.unlisted
            .iter()
            .filter(|(name, _)| name.starts_with(PROGRAM) == by_program && *name != "digest alone")
            .filter_map(|(_, class)| class.smallest.as_ref())
            .min_by(|one, other| one.rank().cmp(&other.rank()))
            .map(|example| example.command.clone())
    }

    pub fn add(&mut self, other: Table) {
        self.commands += other.commands;
        self.equal += other.equal;
        self.not_had += other.not_had;
        self.looked_at += other.looked_at;
        for (mine, theirs) in [(&mut self.listed, other.listed), (&mut self.unlisted, other.unlisted)] {
            for (name, class) in theirs {
                mine.entry(name).or_default().add(class.count, class.smallest);
            }
        }
    }

    /// Takes only the examples of another table.
    pub fn add_smallest(&mut self, other: Table) {
        for (name, class) in other.unlisted {
            self.unlisted.entry(name).or_default().add(0, class.smallest);
        }
    }

    pub fn row(&self, name: &str, what: &str) {
        let listed: u64 = self.listed.values().map(|class| class.count).sum();
        println!(
            "{name:<14} {:>9} {:>9} {listed:>9} {:>8} {:>9}  {what}",
            self.commands,
            self.equal,
            self.not_had,
            self.unlisted()
        );
    }

    /// Prints how many kept lengths and directions were compared, and the classes with the smallest command of each.
    pub fn tell(&self, with_program: bool) -> Verdict {
        let program = if with_program { ", the program's beside the model's" } else { "" };
        let LookedAt { kept_lengths, directions } = self.looked_at;
        println!("kept lengths of {kept_lengths} read headers: the model's beside the Rust's lengths{program}");
        println!("directions of {directions} listed slots: beside the Rust's, with its names exchanged");
        for (title, classes) in [("listed", &self.listed), ("UNLISTED", &self.unlisted)] {
            for (name, class) in classes {
                println!("{title}: {name}: {}", class.count);
                if let Some(example) = &class.smallest {
                    let text = |bytes: &[u8]| String::from_utf8_lossy(bytes).replace('\t', " ");
                    println!("    command {}", text(&example.command));
                    println!("    Rust    {}", text(&example.rust));
                    println!("    model   {}", text(&example.model));
                    if let Some(program) = &example.program {
                        println!("    program {}", text(program));
                    }
                }
            }
        }
        if self.unlisted() == 0 {
            println!("no difference but the listed ones");
            Verdict::Agree
        } else {
            println!("{} unlisted differences", self.unlisted());
            Verdict::Differ
        }
    }
}

/// Commands a little smaller than this one: a byte less at the end, a byte made 0 or halved.
pub fn smaller(command: &[u8]) -> Vec<Vec<u8>> {
    let (start, digits) = command.split_at(2);
    let bytes = bytes_of_hex(digits).unwrap_or_default();
    let with = |bytes: &[u8]| {
        let mut line = start.to_vec();
        hex(bytes, &mut line);
        line
    };
    let mut found = Vec::new();
    if let Some((_, shorter)) = bytes.split_last() {
        found.push(with(shorter));
    }
    for at in 0..bytes.len() {
        for value in [0, bytes[at] / 2] {
            if value < bytes[at] {
                let mut changed = bytes.clone();
                changed[at] = value;
                found.push(with(&changed));
            }
        }
    }
    found
}
