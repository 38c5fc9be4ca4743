//! Compares how the library and a plain model of REFERENCE.md, Trace lines, read lines that are changed at random. It isn't
//! part of the gate.
//!
//! `fuzz_lines SECONDS SEED FILE..`: the lines of the files, also with compact columns and with a column of thread groups, are
//! changed at some places each. Those that the model calls good or skipped are loaded as one text, whose events must be the
//! model's, to the byte. Each one with a fault is loaded alone and must be refused with the model's fault; one of them is
//! loaded among the good ones too, and must be refused with its line number. Each line is inserted too. The first difference
//! ends the program with status 1.

use std::collections::HashMap;
use std::time::{Duration, Instant};

// ---- The library (histdesk.h).

#[repr(C)]
struct Desk(*mut u8);

#[repr(C)]
#[derive(Clone, Copy, Default, PartialEq, Debug)]
struct Place {
    stamp: u64,
    cpu: u32,
    line: u32,
}

#[repr(C)]
#[derive(Clone, Copy, Default, PartialEq, Debug)]
struct Name {
    bytes: [u8; 31],
    length: u8,
}

#[repr(C)]
#[derive(Clone, Copy, Default, PartialEq, Debug)]
struct Event {
    place: Place,
    name: u32,
    common_pid: i32,
    pid: i32,
    prio: i32,
    target_cpu: i32,
    prev_pid: i32,
    prev_prio: i32,
    task: Name,
    comm: Name,
    prev_comm: Name,
    prev_state: Name,
}

#[repr(C)]
#[derive(Default)]
struct Refusal {
    number: u32,
    fault: u32,
    others: [u32; 4],
    line: u64,
    place: u64,
}

extern "C" {
    fn histdesk_new(desk: *mut Desk) -> u32;
    fn histdesk_free(desk: *mut Desk);
    fn histdesk_load(desk: *mut Desk, text: *const u8, length: usize, events: *mut u64) -> u32;
    fn histdesk_insert(desk: *mut Desk, line: *const u8, length: usize, at: *mut [u32; 2]) -> u32;
    fn histdesk_events(desk: *mut Desk, count: *mut u64) -> u32;
    fn histdesk_events_copy(desk: *mut Desk, from: u64, to: *mut Event, room: usize) -> usize;
    fn histdesk_refused(desk: *mut Desk, refusal: *mut Refusal) -> u32;
}

const BAD_LINE: u32 = 3;
const NO_EVENT: u32 = 6;
const FAULTS: usize = 8;

/// Why a text was refused: the code, and for a bad line its fault and number.
#[derive(PartialEq, Debug)]
struct Refused {
    code: u32,
    fault: u32,
    line: u64,
}

impl Desk {
    fn new() -> Desk {
        let mut desk = Desk(std::ptr::null_mut());
        assert_eq!(unsafe { histdesk_new(&mut desk) }, 0);
        desk
    }

    fn answer(&mut self, code: u32) -> Result<(), Refused> {
        let mut refusal = Refusal::default();
        if code == 0 {
            return Ok(());
        }
        assert_eq!((unsafe { histdesk_refused(self, &mut refusal) }, refusal.number), (0, code));
        Err(Refused { code, fault: refusal.fault, line: refusal.line })
    }

    fn load(&mut self, text: &[u8]) -> Result<u64, Refused> {
        let mut events = 0;
        let code = unsafe { histdesk_load(self, text.as_ptr(), text.len(), &mut events) };
        self.answer(code).map(|()| events)
    }

    /// Inserts a line, and returns the CPU and line number of its event.
    fn insert(&mut self, line: &[u8]) -> Result<[u32; 2], Refused> {
        let mut at = [0; 2];
        let code = unsafe { histdesk_insert(self, line.as_ptr(), line.len(), &mut at) };
        self.answer(code).map(|()| at)
    }

    /// All events, in merged order.
    fn events(&mut self) -> Vec<Event> {
        let mut count = 0;
        assert_eq!(unsafe { histdesk_events(self, &mut count) }, 0);
        let mut events = vec![Event::default(); count as usize];
        assert_eq!(unsafe { histdesk_events_copy(self, 0, events.as_mut_ptr(), events.len()) }, events.len());
        events
    }
}

impl Drop for Desk {
    fn drop(&mut self) {
        unsafe { histdesk_free(self) }
    }
}

// ---- The model: a line is an event, skipped, or has a fault.

fn span(text: &[u8], has: impl Fn(u8) -> bool) -> (&[u8], &[u8]) {
    text.split_at(text.iter().position(|byte| !has(*byte)).unwrap_or(text.len()))
}

fn is_digit(byte: u8) -> bool {
    byte.is_ascii_digit()
}

fn spaces(text: &[u8]) -> (&[u8], &[u8]) {
    span(text, |byte| byte == b' ')
}

type Cut<'a> = (&'a [u8], &'a [u8]);

/// A cut whose front is not empty.
fn some(cut: Cut<'_>) -> Option<Cut<'_>> {
    (!cut.0.is_empty()).then_some(cut)
}

/// One or more digits, as a number that is at most 2^40.
fn digits(text: &[u8]) -> Option<i64> {
    let number = |number: i64, byte: &u8| is_digit(*byte).then(|| (10 * number + i64::from(byte - b'0')).min(1 << 40));
    if text.is_empty() {
        None
    } else {
        text.iter().try_fold(0, number)
    }
}

fn signed(text: &[u8]) -> Option<i64> {
    text.strip_prefix(b"-").map_or_else(|| digits(text), |text| Some(-digits(text)?))
}

fn fit(number: i64) -> Result<i32, u32> {
    i32::try_from(number).map_err(|_| 5)
}

fn name(text: &[u8]) -> Result<Name, u32> {
    let mut name = Name::default();
    name.bytes.get_mut(..text.len()).ok_or(6_u32)?.copy_from_slice(text);
    name.length = text.len() as u8;
    Ok(name)
}

/// Cuts off the last word, which has to be a label with a part that has the form.
fn last<'a, T>(text: &'a [u8], label: &str, form: impl Fn(&'a [u8]) -> Option<T>) -> Option<(&'a [u8], T)> {
    let at = text.iter().rposition(|byte| *byte == b' ')?;
    Some((&text[..at], form(text[at + 1..].strip_prefix(label.as_bytes())?)?))
}

/// The text after one or more digits and some other text.
fn behind_count<'a>(text: &'a [u8], other: &str) -> Option<&'a [u8]> {
    some(span(text, is_digit))?.1.strip_prefix(other.as_bytes())
}

fn is_lost(line: &[u8]) -> bool {
    match line.strip_prefix(b"CPU:").and_then(|text| behind_count(text, " [LOST ")) {
        Some(text) => behind_count(text, " ").unwrap_or(text) == b"EVENTS]",
        None => false,
    }
}

fn behind_group(text: &[u8]) -> Option<&[u8]> {
    let (_, text) = some(span(spaces(text.strip_prefix(b"(")?).1, |byte| is_digit(byte) || byte == b'-'))?;
    Some(some(spaces(text.strip_prefix(b")")?))?.1)
}

/// PID, CPU and what stands after them, if a TASK's `-` stands in front.
fn tail(text: &[u8]) -> Option<(i64, i64, &[u8])> {
    let (pid, text) = some(span(text, is_digit))?;
    let (_, text) = some(spaces(text))?;
    let text = behind_group(text).unwrap_or(text);
    let (cpu, text) = some(span(text.strip_prefix(b"[")?, is_digit))?;
    Some((digits(pid)?, digits(cpu)?, text.strip_prefix(b"] ")?))
}

fn stamp(word: &[u8]) -> Option<u64> {
    let (seconds, micros) = word.strip_suffix(b":")?.split_at_checked(word.len().checked_sub(8)?)?;
    let seconds = digits(seconds).filter(|number| seconds.len() <= 10 && *number < 1 << 32)?;
    Some(seconds as u64 * 1_000_000 + digits(micros.strip_prefix(b".")?)? as u64)
}

fn wake(text: &[u8], event: &mut Event) -> Result<(), u32> {
    let parts = || {
        let (text, target) = last(text, "target_cpu=", digits)?;
        let (text, success) = match text.iter().rposition(|byte| *byte == b' ') {
            Some(at) if text[at + 1..].starts_with(b"success=") => last(text, "success=", signed)?,
            _ => (text, 0),
        };
        let (text, prio) = last(text, "prio=", signed)?;
        let (text, pid) = last(text, "pid=", signed)?;
        Some((text.strip_prefix(b"comm=")?, pid, prio, success, target))
    };
    let (comm, pid, prio, success, target) = parts().ok_or(4_u32)?;
    (event.comm, event.pid, event.prio) = (name(comm)?, fit(pid)?, fit(prio)?);
    fit(success)?;
    event.target_cpu = fit(target)?;
    Ok(())
}

fn switch(text: &[u8], event: &mut Event) -> Result<(), u32> {
    const ARROW: &[u8] = b" ==> next_comm=";
    let parts = || {
        let (text, next_prio) = last(text, "next_prio=", signed)?;
        let (text, next_pid) = last(text, "next_pid=", signed)?;
        let at = text.windows(ARROW.len()).rposition(|part| part == ARROW)?;
        let (text, next_comm) = (&text[..at], &text[at + ARROW.len()..]);
        let (text, state) = last(text, "prev_state=", |text| (!text.is_empty()).then_some(text))?;
        let (text, prio) = last(text, "prev_prio=", signed)?;
        let (text, pid) = last(text, "prev_pid=", signed)?;
        Some(((text.strip_prefix(b"prev_comm=")?, pid, prio, state), (next_comm, next_pid, next_prio)))
    };
    let ((comm, pid, prio, state), next) = parts().ok_or(4_u32)?;
    (event.prev_comm, event.prev_pid, event.prev_prio, event.prev_state) = (name(comm)?, fit(pid)?, fit(prio)?, name(state)?);
    (event.comm, event.pid, event.prio) = (name(next.0)?, fit(next.1)?, fit(next.2)?);
    Ok(())
}

/// The common part of a line's event, and what stands after its stamp; `None` if the line is skipped.
fn columns(line: &[u8]) -> Result<Option<(Event, &[u8])>, u32> {
    if line.len() > 4096 {
        return Err(7);
    }
    if line.iter().all(|byte| b" \t".contains(byte)) || line[0] == b'#' || is_lost(line) {
        return Ok(None);
    }
    let line = spaces(line).1;
    let dashes = (0..line.len()).filter(|at| line[*at] == b'-');
    let (task, (pid, cpu, rest)) =
        dashes.map(|at| (&line[..at], &line[at + 1..])).find_map(|(task, rest)| Some((task, tail(rest)?))).ok_or(1_u32)?;
    let mut event = Event { name: 5, task: name(task)?, common_pid: fit(pid)?, ..Event::default() };
    event.place.cpu = u32::try_from(cpu).ok().filter(|cpu| *cpu <= 8191).ok_or(2_u32)?;
    let word = |text| span(spaces(text).1, |byte| byte != b' ');
    let (letters, rest) = word(rest);
    let (at, rest) = if letters.contains(&b':') { (letters, rest) } else { word(rest) };
    event.place.stamp = stamp(at).filter(|_| at == letters || letters.len() <= 16).ok_or(3_u32)?;
    Ok(Some((event, rest)))
}

type Read = Result<Option<Event>, u32>;

fn read(line: &[u8]) -> Read {
    let Some((mut event, rest)) = columns(line)? else { return Ok(None) };
    let rest = spaces(rest).1;
    for (number, label) in ["sched_waking:", "sched_wakeup:", "sched_wakeup_new:", "sched_switch:"].iter().enumerate() {
        if let Some(payload) = rest.strip_prefix(label.as_bytes()) {
            let payload = spaces(payload).1;
            let end = payload.iter().rposition(|byte| *byte != b' ').map_or(0, |at| at + 1);
            event.name = number as u32;
            (if number == 3 { switch } else { wake })(&payload[..end], &mut event)?;
        }
    }
    Ok(Some(event))
}

// ---- Lines changed at random.

const BYTES: &[u8] = b" -:=[]().,>_#\t0123456789abcmpsx\x00\xff";
const PARTS: &str =
    "| ==> next_comm=| ==> next_comm| prev_state=| prev_pid=| next_pid=| pid=| prio=| success=1| target_cpu=|comm=\
    |prev_comm=|-1 [0] |-12 (  3) | (-------)| [000] |(|)|[|] |  |=|-|:|: | |sched_waking:|sched_wakeup: |sched_wakeup_new: \
    |sched_switch: | 0.000001: |d..2. |CPU:1 [LOST 7 EVENTS]|#";
const NUMBERS: &str =
    "0|-0|7|00|000|0000|8191|8192|08191|9999|12345678|999999999|2147483647|2147483648|-2147483648|-2147483649\
    |4294967295|4294967296|9999999999|00000000001|18446744073709551617|000000|999999";

/// Marsaglia's xorshift.
struct Random(u64);

impl Random {
    fn below(&mut self, end: usize) -> usize {
        self.0 ^= self.0 << 13;
        self.0 ^= self.0 >> 7;
        self.0 ^= self.0 << 17;
        ((self.0 >> 11) % end as u64) as usize
    }

    fn of<'a, T>(&mut self, items: &'a [T]) -> &'a T {
        &items[self.below(items.len())]
    }

    fn part(&mut self, parts: &'static str) -> std::str::Bytes<'static> {
        let count = parts.split('|').count();
        parts.split('|').nth(self.below(count)).unwrap_or("").bytes()
    }

    /// The place of a piece of a text of `length` bytes; the piece has at most `most` bytes.
    fn piece(&mut self, length: usize, most: usize) -> std::ops::Range<usize> {
        let from = self.below(length + 1);
        from..from + self.below((length - from).min(most) + 1)
    }

    /// Changes a line at one place.
    fn change(&mut self, line: &mut Vec<u8>, lines: &[Vec<u8>]) {
        let at = self.below(line.len() + 1);
        match self.below(10) {
            0 => line.splice(at..(at + 1).min(line.len()), [*self.of(BYTES)]).for_each(drop),
            1 => line.insert(at, *self.of(BYTES)),
            2 => line.drain(at..(at + 1).min(line.len())).for_each(drop),
            3 => line.splice(at..at, self.part(PARTS)).for_each(drop),
            4 => {
                // Another number.
                let from = at + span(&line[at..], |byte| !is_digit(byte)).0.len();
                let to = from + span(&line[from..], is_digit).0.len();
                line.splice(from..to, self.part(NUMBERS));
            }
            5 => {
                // Another line's end.
                let other = self.of(lines);
                line.truncate(at);
                line.extend_from_slice(&other[self.below(other.len() + 1)..]);
            }
            6 => {
                let piece = self.piece(line.len(), 24);
                let copy = line[piece].to_vec();
                line.splice(at..at, copy);
            }
            7 => line.drain(self.piece(line.len(), 24)).for_each(drop),
            8 => {
                // Wider columns, longer names and numbers, and now and then a line of about as many bytes as it may have.
                let byte = *self.of(b" 01x-");
                let longest = 4094 + self.below(6);
                let count = if self.below(500) == 0 { longest.saturating_sub(line.len()) } else { self.below(40) };
                line.splice(at..at, std::iter::repeat_n(byte, count));
            }
            _ => {
                // Narrower columns.
                let from = at + span(&line[at..], |byte| byte != b' ').0.len();
                let to = from + spaces(&line[from..]).0.len();
                line.drain(from..to.max(from + 1).min(line.len()).max(from));
            }
        }
    }

    fn changed(&mut self, lines: &[Vec<u8>]) -> Vec<u8> {
        let mut line = self.of(lines).clone();
        for _ in 0..*self.of(&[0, 1, 1, 1, 1, 2, 2, 4]) {
            self.change(&mut line, lines);
        }
        line
    }
}

/// The lines of a text, and those of its events with other columns too.
fn sources(text: &[u8]) -> Vec<Vec<u8>> {
    let mut lines = Vec::new();
    for line in text.split(|byte| *byte == b'\n') {
        lines.push(line.to_vec());
        if let Ok(Some((event, rest))) = columns(line) {
            let task = &event.task.bytes[..event.task.length as usize];
            let (pid, cpu) = (event.common_pid, event.place.cpu);
            let (seconds, micros) = (event.place.stamp / 1_000_000, event.place.stamp % 1_000_000);
            let compact = format!("-{pid} [{cpu:03}] {seconds}.{micros:06}:");
            let grouped = format!("-{pid:<7} ({pid:>7}) [{cpu:03}] d..3. {seconds:>5}.{micros:06}:");
            lines.extend([compact, grouped].map(|columns| [task, columns.as_bytes(), rest].concat()));
        }
    }
    lines
}

// ---- What is compared.

/// Ends the program if what the library gives isn't the model's.
fn same<T: PartialEq + std::fmt::Debug>(what: &str, line: &[u8], library: T, model: T) {
    if library != model {
        println!("{what} of \"{}\"\n  library: {library:?}\n  model:   {model:?}", line.escape_ascii());
        std::process::exit(1);
    }
}

fn text_of<'a>(lines: impl IntoIterator<Item = &'a Vec<u8>>) -> Vec<u8> {
    lines.into_iter().flat_map(|line| line.iter().chain(b"\n")).copied().collect()
}

/// Compares the events of a desk with those of the lines, whose numbers count from 1 on each CPU.
fn hold(what: &str, desk: &mut Desk, lines: &[(Vec<u8>, Read)]) {
    let mut counts = HashMap::new();
    let mut expected = HashMap::new();
    for (line, read) in lines {
        if let Ok(Some(mut event)) = *read {
            let count = counts.entry(event.place.cpu).or_insert(0);
            *count += 1;
            event.place.line = *count;
            expected.insert((event.place.cpu, *count), (line, event));
        }
    }
    for event in desk.events() {
        match expected.remove(&(event.place.cpu, event.place.line)) {
            Some((line, model)) => same(what, line, event, model),
            None => same(what, b"no line of these", Some(event), None),
        }
    }
    if let Some((line, event)) = expected.into_values().next() {
        same(what, line, None, Some(event));
    }
}

/// Loads and inserts these lines, and compares what comes of it with the model.
fn compare(lines: &[(Vec<u8>, Read)], at: usize) {
    let mut desk = Desk::new();
    for (line, read) in lines {
        if let Err(fault) = *read {
            same("the load", line, desk.load(line), Err(Refused { code: BAD_LINE, fault, line: 1 }));
        }
    }
    let (good, bad): (Vec<_>, Vec<_>) = lines.iter().partition(|(_, read)| read.is_ok());
    let good: Vec<_> = good.into_iter().map(|(line, _)| line).collect();
    if let Some((line, Err(fault))) = bad.first() {
        let at = at % (good.len() + 1);
        let text = text_of(good[..at].iter().copied().chain([line]).chain(good[at..].iter().copied()));
        same("the line number", line, desk.load(&text), Err(Refused { code: BAD_LINE, fault: *fault, line: at as u64 + 1 }));
    }
    if let Err(refused) = desk.load(&text_of(good.iter().copied())) {
        println!("a good line is refused: {refused:?}: \"{}\"", good[refused.line as usize - 1].escape_ascii());
        std::process::exit(1);
    }
    hold("the event", &mut desk, lines);
    let mut desk = Desk::new();
    for (line, read) in lines {
        let code = match read {
            Ok(None) => Err(Refused { code: NO_EVENT, fault: 0, line: 0 }),
            Ok(Some(event)) => Ok(event.place.cpu),
            Err(fault) => Err(Refused { code: BAD_LINE, fault: *fault, line: 1 }),
        };
        same("the insert", line, desk.insert(line).map(|[cpu, _]| cpu), code);
    }
    hold("the inserted event", &mut desk, lines);
}

fn main() {
    let words: Vec<String> = std::env::args().collect();
    let seconds = words[1].parse().expect("seconds");
    let mut random = Random(2 * words[2].parse::<u64>().expect("a seed") + 1);
    let text: Vec<u8> = words[3..].iter().flat_map(|file| std::fs::read(file).expect("a file")).collect();
    let sources = sources(&text);
    let begun = Instant::now();
    let (mut count, mut events, mut skipped, mut faults) = (0_u64, 0_u64, 0_u64, [0_u64; FAULTS]);
    while begun.elapsed() < Duration::from_secs(seconds) {
        let lines: Vec<_> = (0..500)
            .map(|_| random.changed(&sources))
            .map(|line| {
                let read = read(&line);
                (line, read)
            })
            .collect();
        for (_, read) in &lines {
            match read {
                Ok(Some(_)) => events += 1,
                Ok(None) => skipped += 1,
                Err(fault) => faults[*fault as usize] += 1,
            }
        }
        count += lines.len() as u64;
        compare(&lines, random.below(1000));
    }
    let rate = count as f64 / begun.elapsed().as_secs_f64();
    println!(
        "{count} lines, {rate:.0} a second: {events} events, {skipped} skipped, faults 1 to 7: {:?}; no difference",
        &faults[1..]
    );
}
