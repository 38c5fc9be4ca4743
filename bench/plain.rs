//! What whole runs are measured against: a plain program in safe Rust with only std, which reads a trace once, replays it
//! once and prints what `histdesk` prints for the same work.
//!
//! `plain load|table|pairs TRACE`: only the load; `hist:keys=pid` over wakings, printed; the totals of a reader of wakeup
//! latencies, with its saver.
//!
//! It is written for speed, with no dependency: the file's text stays, and names point into it; payloads are cut from the
//! right; events stand in one vector in the order of lines, from which a trigger's are taken in merged order by a walk;
//! tables are hash maps, whose hash is one multiplication. It proves nothing, has only triggers of these forms, and keeps
//! nothing for edits, listings or latencies: of each key a table has the count, and what was saved last. A line with a
//! fault ends it, without a word on which line or fault, and it takes more lines for good or skipped ones than
//! REFERENCE.md does.

// What an event has is held, as the desk holds it, even if nothing here reads it.
#![allow(dead_code)]

use std::collections::HashMap;
use std::hash::{BuildHasherDefault, Hasher};
use std::io::{BufRead, Write};

const SIZE: usize = 2048;

struct Wake<'a> {
    comm: &'a [u8],
    pid: i32,
    prio: i32,
    target_cpu: i32,
}

struct Turn<'a> {
    prev_comm: &'a [u8],
    prev_pid: i32,
    prev_prio: i32,
    prev_state: &'a [u8],
    next_comm: &'a [u8],
    next_pid: i32,
    next_prio: i32,
}

enum Body<'a> {
    Waking(Wake<'a>),
    Wakeup(Wake<'a>),
    WakeupNew(Wake<'a>),
    Switch(Turn<'a>),
    Other,
}

struct Event<'a> {
    task: &'a [u8],
    pid: i32,
    cpu: u16,
    stamp: u64,
    body: Body<'a>,
}

// ---- Lines.

/// The bytes in front of those that are not of a kind, and the rest.
fn span(text: &[u8], kind: impl Fn(u8) -> bool) -> (&[u8], &[u8]) {
    let end = text.iter().position(|byte| !kind(*byte)).unwrap_or(text.len());
    text.split_at(end)
}

fn is_digit(byte: u8) -> bool {
    byte.is_ascii_digit()
}

/// The text after its spaces.
fn stripped(text: &[u8]) -> &[u8] {
    span(text, |byte| byte == b' ').1
}

fn word(text: &[u8]) -> (&[u8], &[u8]) {
    span(text, |byte| byte != b' ')
}

fn trimmed(text: &[u8]) -> &[u8] {
    let text = stripped(text);
    let end = text.iter().rposition(|byte| *byte != b' ').map_or(0, |at| at + 1);
    &text[..end]
}

fn digits(text: &[u8], most: u64) -> Option<u64> {
    if text.is_empty() {
        return None;
    }
    text.iter().try_fold(0_u64, |number, byte| {
        let digit = is_digit(*byte).then(|| u64::from(byte - b'0'))?;
        let number = number * 10 + digit;
        (number <= most).then_some(number)
    })
}

fn number(text: &[u8]) -> Option<i32> {
    match text.strip_prefix(b"-") {
        Some(text) => Some(-(digits(text, 1 << 31)? as i64) as i32),
        None => Some(digits(text, i32::MAX as u64)? as i32),
    }
}

fn name(text: &[u8]) -> Option<&[u8]> {
    (text.len() <= 31).then_some(text)
}

/// Cuts the last word off, which begins with a label.
fn last_part<'a>(text: &'a [u8], label: &[u8]) -> Option<(&'a [u8], &'a [u8])> {
    let at = text.iter().rposition(|byte| *byte == b' ')?;
    Some((&text[..at], text[at + 1..].strip_prefix(label)?))
}

fn wake(text: &[u8]) -> Option<Wake<'_>> {
    let (text, target_cpu) = last_part(text, b"target_cpu=")?;
    let text = last_part(text, b"success=").map_or(text, |(text, _)| text);
    let (text, prio) = last_part(text, b"prio=")?;
    let (text, pid) = last_part(text, b"pid=")?;
    Some(Wake {
        comm: name(text.strip_prefix(b"comm=")?)?,
        pid: number(pid)?,
        prio: number(prio)?,
        target_cpu: number(target_cpu)?,
    })
}

/// The text in front of the last arrow, and the name after it.
fn arrow(text: &[u8]) -> Option<(&[u8], &[u8])> {
    let mut end = text.len();
    loop {
        end = text[..end].iter().rposition(|byte| *byte == b'=')?;
        if let Some(front) = text[..end].strip_suffix(b" ==> next_comm") {
            return Some((front, &text[end + 1..]));
        }
    }
}

fn turn(text: &[u8]) -> Option<Turn<'_>> {
    let (text, next_prio) = last_part(text, b"next_prio=")?;
    let (text, next_pid) = last_part(text, b"next_pid=")?;
    let (text, next_comm) = arrow(text)?;
    let (text, prev_state) = last_part(text, b"prev_state=")?;
    let (text, prev_prio) = last_part(text, b"prev_prio=")?;
    let (text, prev_pid) = last_part(text, b"prev_pid=")?;
    Some(Turn {
        prev_comm: name(text.strip_prefix(b"prev_comm=")?)?,
        prev_pid: number(prev_pid)?,
        prev_prio: number(prev_prio)?,
        prev_state: name(prev_state)?,
        next_comm: name(next_comm)?,
        next_pid: number(next_pid)?,
        next_prio: number(next_prio)?,
    })
}

fn body(text: &[u8]) -> Option<Body<'_>> {
    let Some(rest) = text.strip_prefix(b"sched_") else {
        return Some(Body::Other);
    };
    Some(if let Some(rest) = rest.strip_prefix(b"switch:") {
        Body::Switch(turn(trimmed(rest))?)
    } else if let Some(rest) = rest.strip_prefix(b"waking:") {
        Body::Waking(wake(trimmed(rest))?)
    } else if let Some(rest) = rest.strip_prefix(b"wakeup:") {
        Body::Wakeup(wake(trimmed(rest))?)
    } else if let Some(rest) = rest.strip_prefix(b"wakeup_new:") {
        Body::WakeupNew(wake(trimmed(rest))?)
    } else {
        Body::Other
    })
}

/// What stands after a task and its `-`: its pid, perhaps its thread group, the CPU, and the rest of the line.
fn place(text: &[u8]) -> Option<(i32, u16, &[u8])> {
    let (pid, text) = span(text, is_digit);
    let mut text = stripped(text.strip_prefix(b" ")?);
    if let Some(group) = text.strip_prefix(b"(") {
        let (group, rest) = span(stripped(group), |byte| is_digit(byte) || byte == b'-');
        text = stripped(rest.strip_prefix(b") ").filter(|_| !group.is_empty())?);
    }
    let (cpu, text) = span(text.strip_prefix(b"[")?, is_digit);
    Some((number(pid)?, digits(cpu, 8191)? as u16, text.strip_prefix(b"] ")?))
}

fn stamp(word: &[u8]) -> Option<u64> {
    let (seconds, micros) = word.strip_suffix(b":")?.split_at_checked(word.len().checked_sub(8)?)?;
    Some(digits(seconds, u64::from(u32::MAX))? * 1_000_000 + digits(micros.strip_prefix(b".")?, 999_999)?)
}

fn event(line: &[u8]) -> Option<Event<'_>> {
    let line = stripped(line);
    let dashes = (0..line.len()).filter(|at| line[*at] == b'-');
    let (task, (pid, cpu, rest)) =
        dashes.map(|at| (&line[..at], &line[at + 1..])).find_map(|(task, rest)| Some((task, place(rest)?)))?;
    let (letters, rest) = word(stripped(rest));
    // The column of letters is not always there.
    let (at, rest) = if letters.contains(&b':') { (letters, rest) } else { word(stripped(rest)) };
    Some(Event { task: name(task)?, pid, cpu, stamp: stamp(at)?, body: body(stripped(rest))? })
}

fn is_skipped(line: &[u8]) -> bool {
    line.starts_with(b"#") || line.starts_with(b"CPU:") || line.iter().all(|byte| *byte == b' ')
}

/// The events of a text, in the order of its lines.
fn load(mut text: &[u8]) -> Vec<Event<'_>> {
    // An average line is longer.
    let mut events = Vec::with_capacity(text.len() / 128);
    while !text.is_empty() {
        let line = text;
        let taken = text.skip_until(b'\n').expect("a slice is read without a fault");
        let line = &line[..taken];
        let line = line.strip_suffix(b"\n").unwrap_or(line);
        if !is_skipped(line) {
            events.push(event(line).expect("a trace line"));
        }
    }
    events
}

// ---- The replay.

/// What a trigger takes of an event: where it stands, and a key; and whether it is a waking, which saves its stamp.
#[derive(Clone, Copy)]
struct Act {
    stamp: u64,
    cpu: u16,
    saves: bool,
    key: i32,
}

impl Act {
    /// The act's place in merged order, except for its line.
    fn place(&self) -> (u64, u16) {
        (self.stamp, self.cpu)
    }

    fn of_waking(event: &Event) -> Option<Act> {
        let Body::Waking(wake) = &event.body else { return None };
        Some(Act { stamp: event.stamp, cpu: event.cpu, saves: true, key: wake.pid })
    }

    fn of_switch(event: &Event) -> Option<Act> {
        let Body::Switch(turn) = &event.body else { return None };
        Some(Act { stamp: event.stamp, cpu: event.cpu, saves: false, key: turn.next_pid })
    }
}

/// The acts in merged order: by stamp, then CPU, then line.
fn merged<'a>(events: &[Event<'a>], act_of: impl Fn(&Event<'a>) -> Option<Act>) -> Vec<Act> {
    let mut acts: Vec<Act> = Vec::with_capacity(events.len());
    for act in events.iter().filter_map(act_of) {
        // Lines of most traces are nearly in order, so an act goes back as far as it must, and not far.
        let back = acts.iter().rev().take(64).take_while(|before| before.place() > act.place()).count();
        acts.insert(acts.len() - back, act);
    }
    // No act has gone past an equal one, and a stable sort keeps those in order too.
    if !acts.is_sorted_by_key(Act::place) {
        acts.sort_by_key(Act::place);
    }
    acts
}

/// The hash of a number: its product with an odd number near 2^64 over the golden ratio.
#[derive(Default)]
struct Product(u64);

impl Hasher for Product {
    fn finish(&self) -> u64 {
        self.0.rotate_left(32)
    }

    fn write(&mut self, _: &[u8]) {
        unreachable!("keys are numbers");
    }

    fn write_i32(&mut self, key: i32) {
        self.0 = (key as u64).wrapping_mul(0x9e37_79b9_7f4a_7c15);
    }
}

type Map<T> = HashMap<i32, T, BuildHasherDefault<Product>>;

/// A table of hit counts, with room for `SIZE` keys, and a variable for each key that is in.
#[derive(Default)]
struct Table {
    rows: Map<Row>,
    hits: u64,
    dropped: u64,
}

#[derive(Default)]
struct Row {
    hits: u64,
    saved: Option<u64>,
}

impl Table {
    /// Counts a hit, and returns the row of its key, if that is in.
    fn count(&mut self, key: i32) -> Option<&mut Row> {
        if self.rows.len() == SIZE && !self.rows.contains_key(&key) {
            self.dropped += 1;
            return None;
        }
        self.hits += 1;
        let row = self.rows.entry(key).or_default();
        row.hits += 1;
        Some(row)
    }
}

fn table(events: &[Event], out: &mut impl Write) -> std::io::Result<()> {
    let mut table = Table::default();
    for act in merged(events, Act::of_waking) {
        table.count(act.key);
    }
    let mut rows: Vec<_> = table.rows.iter().map(|(key, row)| (row.hits, *key)).collect();
    rows.sort_unstable();
    writeln!(out, "attached 1\n# event histogram\n#")?;
    writeln!(out, "# trigger info: hist:keys=pid:vals=hitcount:sort=hitcount:size={SIZE} [active]\n#\n")?;
    for (hits, key) in rows {
        writeln!(out, "{{ pid: {key:>10} }} hitcount: {hits:>10}")?;
    }
    write!(
        out,
        "\nTotals:\n    Hits: {}\n    Entries: {}\n    Dropped: {}\n",
        table.hits,
        table.rows.len(),
        table.dropped
    )
}

fn pairs(events: &[Event], out: &mut impl Write) -> std::io::Result<()> {
    let (mut savers, mut readers) = (Table::default(), Table::default());
    let mut micros = 0_u64;
    for act in merged(events, |event| Act::of_waking(event).or_else(|| Act::of_switch(event))) {
        if act.saves {
            if let Some(row) = savers.count(act.key) {
                row.saved = Some(act.stamp);
            }
        } else if let Some(saved) = savers.rows.get_mut(&act.key).and_then(|row| row.saved.take()) {
            readers.count(act.key);
            micros = micros.wrapping_add(act.stamp.saturating_sub(saved));
        }
    }
    std::hint::black_box(micros);
    writeln!(out, "attached 1\nattached 2")?;
    writeln!(out, "hits {} entries {} dropped {}", readers.hits, readers.rows.len(), readers.dropped)
}

fn main() -> std::io::Result<()> {
    let words: Vec<String> = std::env::args().collect();
    let text = std::fs::read(&words[2])?;
    let events = load(&text);
    let mut out = std::io::BufWriter::new(std::io::stdout().lock());
    writeln!(out, "loaded {}", events.len())?;
    match words[1].as_str() {
        "table" => table(&events, &mut out)?,
        "pairs" => pairs(&events, &mut out)?,
        _ => {}
    }
    out.flush()?;
    // What is held is not freed, as the desk's isn't.
    std::process::exit(0)
}
