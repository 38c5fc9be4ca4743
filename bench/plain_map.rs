//! What a table is measured against: one BTreeMap from place and key to values, of the same types.

use std::collections::BTreeMap;
use std::time::Instant;

#[derive(Clone, Copy, PartialEq, Eq, PartialOrd, Ord)]
struct Pos {
    stamp: u64,
    cpu: u16,
    line: u32,
}

#[allow(dead_code)]
#[derive(Clone, Copy, PartialEq, Eq, PartialOrd, Ord)]
enum Part {
    Num(i64),
    Log2(u8),
    Bucket(u64),
    Text([u8; 31], u8),
}

type Key = (Part, Option<(Part, Option<Part>)>);

fn mark(stamp: u32, pid: i64) -> (Pos, Key) {
    let stamp = u64::from(stamp);
    (Pos { stamp, cpu: 0, line: 1 }, (Part::Num(pid), None))
}

/// The most memory that this process has held, in KB.
fn peak() -> u64 {
    let status = std::fs::read_to_string("/proc/self/status").unwrap();
    let line = status.lines().find(|line| line.starts_with("VmHWM:")).unwrap();
    line.split_whitespace().nth(1).unwrap().parse().unwrap()
}

fn main() {
    let numbers: Vec<u32> = std::env::args().skip(1).map(|word| word.parse().unwrap()).collect();
    let (hits, keys, edits) = (numbers[0], numbers[1], numbers[2]);
    let start = Instant::now();
    let mut map = BTreeMap::new();
    for n in 0..hits {
        let mark = mark(n + 1, i64::from(n % keys));
        if !map.contains_key(&mark) {
            map.insert(mark, [1_i64, 2, 3]);
        }
    }
    print!("{} ", start.elapsed().as_nanos());

    let first = mark(0, -1);
    let start = Instant::now();
    for _ in 0..edits {
        map.insert(first, [1, 2, 3]);
        map.remove(&first);
    }
    print!("{} {} {} ", start.elapsed().as_nanos(), map.len(), peak());

    let mut marks: Vec<_> = map.keys().take(keys as usize).copied().collect();
    let start = Instant::now();
    for _ in 0..edits {
        marks.insert(0, first);
        marks.remove(0);
    }
    println!("{}", start.elapsed().as_nanos());
}
