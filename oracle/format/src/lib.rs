//! Commands and dumps as FORMAT.md defines them: the same text for every side, so that a side only has to read, write and spell its records.

pub mod generator;
pub mod text;

use std::io::{BufRead, BufReader, Write};
use std::ops::Range;
use std::panic::{catch_unwind, AssertUnwindSafe};
use text::{bytes_of_hex, decimal, fnv, hex, FNV_START};

/// What a buffer holds before it is written into.
pub const FILL: u8 = 0xa5;
/// The most room that a command may ask for.
pub const MOST_ROOM: usize = 256;
/// The bytes in front of the input or the record: place, room, place in the buffer, counter choice, counter.
pub const PREFIX: usize = 11;
/// A refusal of the Rust that has no number in document 01.
pub const UNKNOWN: u8 = 99;

pub type Number = u8;

/// A record kind of one side, and how that side reads, builds, spells and writes it.
pub trait Part {
    type Record: Copy;

    /// Whether it is read and written at the places that a command names; otherwise at the beginning.
    const PLACED: bool = true;

    /// The record at a place of the slice and the count of its bytes, or the refusal.
    fn read(bytes: &[u8], place: usize) -> Result<(Self::Record, usize), Number>;

    /// The same in the folded form.
    fn read_folded(bytes: &[u8], place: usize) -> Result<(Self::Record, usize), Number> {
        Self::read(bytes, place)
    }

    /// The record in the fixed layout.
    fn spell(record: &Self::Record, out: &mut Vec<u8>);

    /// The record of a well-formed spelling; none where the side has no such record.
    fn build(spelled: &[u8]) -> Option<Self::Record>;

    /// Writes at a place of the buffer; none where the side can't be asked.
    fn write(record: Self::Record, counter: Option<u32>, buffer: &mut [u8], place: usize) -> Option<Result<usize, Number>>;

    /// The size that stands in the dump, for the kind that has one there.
    fn size(_record: &Self::Record) -> Option<usize> {
        None
    }

    /// The frame counter that the record holds.
    fn counter(_record: &Self::Record) -> Option<u32> {
        None
    }
}

/// One of the programs that are held side by side.
pub trait Side {
    type Header: Part;
    type Security: Part;
    type Control: Part;
    type PanId: Part;
    type Short: Part;
    type Extended: Part;
    type Superframe: Part;
    type Descriptor: Part;
    type Slots: Part;
    type Pending: Part;
    type Beacon: Part;

    /// Whether it names the directions of listed slots the other way round than document 02's request 6: a set bit Transmit.
    const EXCHANGED: bool = false;

    /// `get_octet_size` of a header.
    fn header_size(header: &<Self::Header as Part>::Record) -> usize;

    fn frame_type(bits: u8) -> Result<u8, Number>;
    fn frame_version(bits: u8) -> Result<u8, Number>;
    fn address_mode(bits: u8) -> Result<u8, Number>;

    /// Beacon order (case and value) and superframe order of a byte.
    fn orders(byte: u8) -> [u8; 4];

    /// The broadcast forms and the empty records, spelled one after the other.
    fn constants(out: &mut Vec<u8>);

    /// The payload view: the refusal, or where the rest begins and the rest itself.
    fn view(bytes: &[u8]) -> Result<(usize, &[u8]), Number>;
}

#[derive(Clone, Copy)]
enum Counter {
    None,
    Given(u32),
    AsRead,
}

#[derive(Clone, Copy)]
struct Ask {
    place: usize,
    room: usize,
    out: usize,
    counter: Counter,
}

fn number16(bytes: &[u8], at: usize) -> usize {
    bytes[at] as usize + 256 * bytes[at + 1] as usize
}

fn ask(bytes: &[u8]) -> Option<(Ask, &[u8])> {
    if bytes.len() < PREFIX {
        return None;
    }
    let counter = match bytes[6] {
        0 => Counter::None,
        1 => Counter::Given(u32::from_le_bytes([bytes[7], bytes[8], bytes[9], bytes[10]])),
        2 => Counter::AsRead,
        _ => return None,
    };
    let ask = Ask { place: number16(bytes, 0), room: number16(bytes, 2), out: number16(bytes, 4), counter };
    if MOST_ROOM < ask.room {
        return None;
    }
    Some((ask, &bytes[PREFIX..]))
}

/// Whether some slots, n of them, stand at a place with 1+3n bytes behind their header and not 2+3n: such a GTS field alone is read by document
/// 02's request 2, and refused by the Rust.
pub fn nothing_behind(input: &[u8], place: usize) -> bool {
    let left = input.get(place..).unwrap_or(&[]);
    left.first().map_or(false, |header| header % 8 != 0 && left.len() == 2 + 3 * (header % 8) as usize)
}

/// Whether the bytes of a command that reads a GTS field have such a one at their place.
pub fn asks_with_nothing_behind(bytes: &[u8]) -> bool {
    ask(bytes).map_or(false, |(ask, input)| nothing_behind(input, ask.place))
}

/// How a dump is printed. Folded: 5 as 4, no buffer after a refusal, what the Rust refuses for nothing behind it with a byte there, and the
/// Rust's names of listed slots' directions exchanged. Raw: all as it is.
#[derive(Clone, Copy, PartialEq)]
pub enum Form {
    Folded,
    Raw,
}

fn put_number(number: Number, form: Form, out: &mut Vec<u8>) {
    match number {
        5 if form == Form::Folded => out.push(b'4'),
        UNKNOWN => out.extend_from_slice(b"unknown"),
        _ => decimal(number as usize, out),
    }
}

fn put_refused(number: Number, form: Form, out: &mut Vec<u8>) {
    put_number(number, form, out);
    out.extend_from_slice(b"\t0");
}

fn put_written<P: Part>(record: P::Record, ask: Ask, form: Form, out: &mut Vec<u8>) {
    let counter = match ask.counter {
        Counter::None => None,
        Counter::Given(counter) => Some(counter),
        Counter::AsRead => P::counter(&record),
    };
    let mut room = [FILL; MOST_ROOM];
    let buffer = &mut room[..ask.room];
    match P::write(record, counter, buffer, if P::PLACED { ask.out } else { 0 }) {
        None => out.push(b'?'),
        Some(Ok(length)) => {
            out.extend_from_slice(b"0\t");
            decimal(length, out);
            out.push(b'\t');
            hex(buffer, out);
        }
        Some(Err(number)) => {
            put_refused(number, form, out);
            if form == Form::Raw {
                out.push(b'\t');
                hex(buffer, out);
            }
        }
    }
}

fn put_read<P: Part>(bytes: &[u8], form: Form, out: &mut Vec<u8>) -> bool {
    let Some((ask, input)) = ask(bytes) else { return false };
    let read = if form == Form::Raw { P::read } else { P::read_folded };
    match read(input, if P::PLACED { ask.place } else { 0 }) {
        Err(number) => put_refused(number, form, out),
        Ok((record, length)) => {
            out.extend_from_slice(b"0\t");
            decimal(length, out);
            out.push(b'\t');
            put_record::<P>(&record, out);
            out.push(b'\t');
            put_written::<P>(record, ask, form, out);
        }
    }
    true
}

fn put_record<P: Part>(record: &P::Record, out: &mut Vec<u8>) {
    if let Some(size) = P::size(record) {
        decimal(size, out);
        out.push(b'\t');
    }
    let mut spelled = Vec::new();
    P::spell(record, &mut spelled);
    hex(&spelled, out);
}

fn put_build<P: Part>(kind: u8, bytes: &[u8], form: Form, out: &mut Vec<u8>) -> bool {
    let Some((ask, spelled)) = ask(bytes) else { return false };
    if !layout::well_formed(kind, spelled) {
        return false;
    }
    let Some(record) = P::build(spelled) else {
        out.push(b'?');
        return true;
    };
    if let Some(size) = P::size(&record) {
        decimal(size, out);
        out.push(b'\t');
    }
    put_written::<P>(record, ask, form, out);
    true
}

/// The size of the header that is dumped. Its kept length is not looked at.
fn put_header_size<S: Side>(spelled: &[u8], out: &mut Vec<u8>) -> bool {
    if !layout::well_formed(b'H', spelled) {
        return false;
    }
    let mut right = spelled.to_vec();
    right[layout::header::KEPT] = 0;
    match S::Header::build(&right) {
        Some(header) => decimal(S::header_size(&header), out),
        None => out.push(b'?'),
    }
    true
}

fn put_bits(answer: Result<u8, Number>, form: Form, out: &mut Vec<u8>) {
    match answer {
        Ok(bits) => {
            out.extend_from_slice(b"0\t");
            decimal(bits as usize, out);
        }
        Err(number) => put_refused(number, form, out),
    }
}

/// Where an answer to a reading has the digits of the record, if they are those of so many bytes; not of a security part, whose size stands
/// before it.
fn record_place(answer: &[u8], bytes: usize) -> Option<Range<usize>> {
    let mut fields = answer.split(|byte| *byte == b'\t');
    let start = fields.next()?.len() + 1 + fields.next()?.len() + 1;
    (fields.next()?.len() == 2 * bytes).then(|| start..start + 2 * bytes)
}

/// Where an answer has the two digits of a kept length: at the end of the record of a header that was read.
pub fn kept_length_place(kind: u8, answer: &[u8]) -> Option<Range<usize>> {
    if kind != b'h' {
        return None;
    }
    record_place(answer, layout::HEADER).map(|place| place.end - 2..place.end)
}

/// Makes the kept length in an answer 0.
pub fn blot_kept_length(kind: u8, answer: &mut [u8]) {
    if let Some(place) = kept_length_place(kind, answer) {
        answer[place].fill(b'0');
    }
}

/// The bytes of a record of this kind, and where among them GTS information begins, if it has some.
fn slots_in(kind: u8) -> Option<(usize, usize)> {
    match kind.to_ascii_lowercase() {
        b'g' => Some((layout::SLOTS, 0)),
        b'b' => Some((layout::BEACON, layout::SUPERFRAME)),
        _ => None,
    }
}

/// How many slots are listed in the record that was read with this answer, or that is given and was written with it.
pub fn listed_slots(kind: u8, bytes: &[u8], answer: &[u8]) -> Option<u8> {
    let (size, place) = slots_in(kind)?;
    if kind.is_ascii_lowercase() {
        Some(bytes_of_hex(&answer[record_place(answer, size)?])?[place + 1])
    } else {
        answer.strip_prefix(b"0\t").and_then(|_| bytes.get(PREFIX + place + 1).copied())
    }
}

/// Exchanges the names of listed slots' directions in the record that a command gives.
pub fn exchange_in_command(kind: u8, bytes: &mut [u8]) {
    if let (true, Some((size, place))) = (kind.is_ascii_uppercase(), slots_in(kind)) {
        if bytes.len() == PREFIX + size {
            layout::exchange_directions(&mut bytes[PREFIX + place..][..layout::SLOTS]);
        }
    }
}

/// Exchanges them in the record that an answer tells.
pub fn exchange_in_answer(kind: u8, answer: &mut [u8]) {
    if let (true, Some((size, place))) = (kind.is_ascii_lowercase(), slots_in(kind)) {
        if let Some(digits) = record_place(answer, size) {
            let mut record = bytes_of_hex(&answer[digits.clone()]).unwrap_or_default();
            layout::exchange_directions(&mut record[place..][..layout::SLOTS]);
            let mut named = Vec::new();
            hex(&record, &mut named);
            answer[digits].copy_from_slice(&named);
        }
    }
}

fn put_digest<S: Side>(bytes: &[u8], form: Form, out: &mut Vec<u8>) -> bool {
    let Some(mut run) = generator::Run::of_command(bytes) else { return false };
    let mut digest = FNV_START;
    let mut made = Vec::new();
    let mut line = Vec::new();
    while let Some(kind) = run.next_command(&mut made) {
        line.clear();
        answer_bytes::<S>(kind, &made, form, &mut line);
        blot_kept_length(kind, &mut line);
        line.push(b'\n');
        digest = fnv(digest, &line);
    }
    hex(&digest.to_be_bytes(), out);
    true
}

fn dispatch<S: Side>(kind: u8, bytes: &[u8], form: Form, out: &mut Vec<u8>) -> bool {
    match (kind, bytes) {
        (b'h', _) => put_read::<S::Header>(bytes, form, out),
        (b's', _) => put_read::<S::Security>(bytes, form, out),
        (b'c', _) => put_read::<S::Control>(bytes, form, out),
        (b'n', _) => put_read::<S::PanId>(bytes, form, out),
        (b'a', _) => put_read::<S::Short>(bytes, form, out),
        (b'x', _) => put_read::<S::Extended>(bytes, form, out),
        (b'f', _) => put_read::<S::Superframe>(bytes, form, out),
        (b'e', _) => put_read::<S::Descriptor>(bytes, form, out),
        (b'g', _) => put_read::<S::Slots>(bytes, form, out),
        (b'q', _) => put_read::<S::Pending>(bytes, form, out),
        (b'b', _) => put_read::<S::Beacon>(bytes, form, out),
        (b'H', _) => put_build::<S::Header>(kind, bytes, form, out),
        (b'S', _) => put_build::<S::Security>(kind, bytes, form, out),
        (b'C', _) => put_build::<S::Control>(kind, bytes, form, out),
        (b'N', _) => put_build::<S::PanId>(kind, bytes, form, out),
        (b'A', _) => put_build::<S::Short>(kind, bytes, form, out),
        (b'X', _) => put_build::<S::Extended>(kind, bytes, form, out),
        (b'F', _) => put_build::<S::Superframe>(kind, bytes, form, out),
        (b'E', _) => put_build::<S::Descriptor>(kind, bytes, form, out),
        (b'G', _) => put_build::<S::Slots>(kind, bytes, form, out),
        (b'Q', _) => put_build::<S::Pending>(kind, bytes, form, out),
        (b'B', _) => put_build::<S::Beacon>(kind, bytes, form, out),
        (b'z', _) => put_header_size::<S>(bytes, out),
        (b't', [bits]) => {
            put_bits(S::frame_type(*bits), form, out);
            true
        }
        (b'v', [bits]) => {
            put_bits(S::frame_version(*bits), form, out);
            true
        }
        (b'm', [bits]) => {
            put_bits(S::address_mode(*bits), form, out);
            true
        }
        (b'o', [byte]) => {
            hex(&S::orders(*byte), out);
            true
        }
        (b'k', []) => {
            let mut spelled = Vec::new();
            S::constants(&mut spelled);
            hex(&spelled, out);
            true
        }
        (b'p', _) => {
            match S::view(bytes) {
                Ok((start, rest)) => {
                    out.extend_from_slice(b"0\t");
                    decimal(start, out);
                    out.push(b'\t');
                    hex(rest, out);
                }
                Err(number) => {
                    put_refused(number, form, out);
                    out.push(b'\t');
                }
            }
            true
        }
        (b'd', _) => put_digest::<S>(bytes, form, out),
        _ => false,
    }
}

/// The dump of a command whose bytes are at hand, without a line feed.
pub fn answer_bytes<S: Side>(kind: u8, bytes: &[u8], form: Form, out: &mut Vec<u8>) {
    let start = out.len();
    let told = catch_unwind(AssertUnwindSafe(|| {
        if !S::EXCHANGED || form == Form::Raw {
            return dispatch::<S>(kind, bytes, form, out);
        }
        let mut named = bytes.to_vec();
        exchange_in_command(kind, &mut named);
        let told = dispatch::<S>(kind, &named, form, out);
        exchange_in_answer(kind, &mut out[start..]);
        told
    }));
    let word: &[u8] = match told {
        Ok(true) => return,
        Ok(false) => b"bad",
        Err(_) => b"panic",
    };
    out.truncate(start);
    out.extend_from_slice(word);
}

/// The dump of a command line.
pub fn answer<S: Side>(line: &[u8], form: Form, out: &mut Vec<u8>) {
    match line {
        [kind, b'\t', rest @ ..] => match bytes_of_hex(rest) {
            Some(bytes) => answer_bytes::<S>(*kind, &bytes, form, out),
            None => out.extend_from_slice(b"bad"),
        },
        _ => out.extend_from_slice(b"bad"),
    }
}

/// A side as a program: a dump line for each command line, flushed whenever no further command is waiting.
pub fn program<S: Side>() {
    std::panic::set_hook(Box::new(|_| ()));
    let form = match std::env::args().nth(1).as_deref() {
        None => Form::Folded,
        Some("--raw") => Form::Raw,
        Some(_) => {
            eprintln!("usage: [--raw], commands on standard input (oracle/FORMAT.md)");
            std::process::exit(2);
        }
    };
    let mut input = BufReader::with_capacity(1 << 16, std::io::stdin().lock());
    let mut output = std::io::stdout().lock();
    let mut line = Vec::new();
    let mut out = Vec::new();
    loop {
        line.clear();
        let got = input.read_until(b'\n', &mut line).expect("standard input");
        if got == 0 {
            break;
        }
        if line.last() == Some(&b'\n') {
            line.pop();
        }
        answer::<S>(&line, form, &mut out);
        out.push(b'\n');
        let waiting = input.buffer().contains(&b'\n');
        if !waiting || (1 << 16) < out.len() {
            // A reader that went away ends the program without a word.
            if output.write_all(&out).and_then(|()| output.flush()).is_err() {
                return;
            }
            out.clear();
        }
    }
    let _ = output.write_all(&out).and_then(|()| output.flush());
}

pub mod layout {
    //! The fixed layouts in which records are spelled.

    pub const HEADER: usize = 48;
    pub const SECURITY: usize = 16;
    pub const CONTROL: usize = 2;
    pub const SUPERFRAME: usize = 8;
    pub const DESCRIPTOR: usize = 5;
    pub const SLOTS: usize = 2 + 7 * DESCRIPTOR;
    pub const PENDING: usize = 1 + 7 * 2 + 1 + 7 * 8;
    pub const BEACON: usize = SUPERFRAME + SLOTS + PENDING;

    /// Places in a header's spelling.
    pub mod header {
        pub const DESTINATION: usize = 8;
        pub const SOURCE: usize = 19;
        pub const SECURED: usize = 30;
        pub const SECURITY: usize = 31;
        pub const KEPT: usize = 47;
    }

    /// The directions by their names.
    pub const RECEIVE: u8 = b'r';
    pub const TRANSMIT: u8 = b't';

    /// An entry of no use: broadcast address, start 0, length 0, Receive.
    pub const EMPTY_DESCRIPTOR: [u8; DESCRIPTOR] = [0xff, 0xff, 0, 0, RECEIVE];

    /// Exchanges the names of the listed slots' directions in spelled GTS information; those of unused places stay.
    pub fn exchange_directions(slots: &mut [u8]) {
        let count = slots[1] as usize;
        for entry in slots[2..].chunks_mut(DESCRIPTOR).take(count) {
            entry[4] = match entry[4] {
                RECEIVE => TRANSMIT,
                TRANSMIT => RECEIVE,
                other => other,
            };
        }
    }

    fn flag(byte: u8) -> bool {
        byte <= 1
    }

    fn direction(byte: u8) -> bool {
        byte == RECEIVE || byte == TRANSMIT
    }

    fn zeros(bytes: &[u8]) -> bool {
        bytes.iter().all(|byte| *byte == 0)
    }

    fn address(bytes: &[u8]) -> bool {
        match bytes[0] {
            0 => zeros(&bytes[1..]),
            2 => zeros(&bytes[5..]),
            mode => mode == 3,
        }
    }

    fn security(bytes: &[u8]) -> bool {
        let key = match bytes[6] {
            0 => zeros(&bytes[7..16]),
            1 => zeros(&bytes[7..15]),
            2 => zeros(&bytes[11..15]),
            kind => kind == 3,
        };
        bytes[1] <= 3 && key
    }

    fn order(bytes: &[u8]) -> bool {
        match bytes[0] {
            0 => true,
            kind => kind == 1 && bytes[1] == 0,
        }
    }

    fn superframe(bytes: &[u8]) -> bool {
        order(&bytes[0..2]) && order(&bytes[2..4]) && bytes[5..8].iter().all(|byte| flag(*byte))
    }

    fn slots(bytes: &[u8]) -> bool {
        flag(bytes[0]) && bytes[2..].chunks(DESCRIPTOR).all(|entry| direction(entry[4]))
    }

    fn header_record(bytes: &[u8]) -> bool {
        let secured = match bytes[header::SECURED] {
            0 => zeros(&bytes[header::SECURITY..header::KEPT]),
            1 => security(&bytes[header::SECURITY..header::KEPT]),
            _ => false,
        };
        bytes[0] <= 7
            && bytes[0] != 4
            && bytes[1..6].iter().all(|byte| flag(*byte))
            && bytes[6] <= 2
            && address(&bytes[header::DESTINATION..header::SOURCE])
            && address(&bytes[header::SOURCE..header::SECURED])
            && secured
    }

    /// Whether a spelling is one of the listed ones, for the kind of a writing command.
    pub fn well_formed(kind: u8, bytes: &[u8]) -> bool {
        match (kind, bytes.len()) {
            (b'H', HEADER) => header_record(bytes),
            (b'S', SECURITY) => security(bytes),
            (b'C', CONTROL) => bytes[1] <= 3,
            (b'N' | b'A', 2) | (b'X', 8) => true,
            (b'F', SUPERFRAME) => superframe(bytes),
            (b'E', DESCRIPTOR) => direction(bytes[4]),
            (b'G', SLOTS) => slots(bytes),
            (b'Q', PENDING) => true,
            (b'B', BEACON) => superframe(bytes) && slots(&bytes[SUPERFRAME..SUPERFRAME + SLOTS]),
            _ => false,
        }
    }
}
