//! What Pairs is measured against: a BTreeMap by key of BTreeMaps by place, of the same types.

use std::collections::BTreeMap;
use std::ops::Bound;
use std::time::Instant;

#[derive(Clone, Copy, PartialEq, Eq, PartialOrd, Ord)]
struct At {
    stamp: u64,
    cpu: u16,
    line: u32,
    trigger: u32,
}

#[allow(dead_code)]
#[derive(Clone, Copy, PartialEq, Eq, PartialOrd, Ord)]
enum Part {
    Num(i64),
    Log2(u8),
    Bucket(u64),
    Text([u8; 31], u8),
}

#[derive(Clone, Copy, PartialEq, Eq)]
enum Op {
    Save,
    Read,
}

type Key = (Part, Option<(Part, Option<Part>)>);
type Pairs = BTreeMap<Key, BTreeMap<At, Op>>;

fn pid(number: u32) -> Key {
    (Part::Num(i64::from(number)), None)
}

fn at(stamp: u32) -> At {
    let stamp = u64::from(stamp);
    At { stamp, cpu: 0, line: 1, trigger: 1 }
}

fn put(pairs: &mut Pairs, key: Key, at: At, op: Op) {
    if pairs.get(&key).is_some_and(|ops| ops.contains_key(&at)) {
        return;
    }
    match pairs.get_mut(&key) {
        Some(ops) => {
            ops.insert(at, op);
        }
        None => {
            pairs.insert(key, BTreeMap::from([(at, op)]));
        }
    }
}

fn source(pairs: &Pairs, key: &Key, at: At) -> Option<At> {
    match pairs.get(key)?.range(..at).next_back() {
        Some((saved, Op::Save)) => Some(*saved),
        _ => None,
    }
}

fn next_op(pairs: &Pairs, key: &Key, after: Option<At>) -> Option<(At, Op)> {
    let from = after.map_or(Bound::Unbounded, Bound::Excluded);
    let (at, op) = pairs.get(key)?.range((from, Bound::Unbounded)).next()?;
    Some((*at, *op))
}

fn main() {
    let numbers: Vec<u32> = std::env::args().skip(1).map(|word| word.parse().unwrap()).collect();
    let (ops, keys) = (numbers[0], numbers[1]);
    let mut pairs = Pairs::new();
    let start = Instant::now();
    for n in 0..ops {
        let op = if n / keys % 2 == 0 { Op::Save } else { Op::Read };
        put(&mut pairs, pid(n % keys), at(n), op);
    }
    print!("{} ", start.elapsed().as_nanos());
    let start = Instant::now();
    let mut found = 0;
    for n in 0..ops {
        found += u32::from(source(&pairs, &pid(n % keys), at(n)).is_some());
    }
    print!("{} ", start.elapsed().as_nanos());
    let start = Instant::now();
    let mut walked = 0;
    for key in 0..keys {
        let mut after = None;
        while let Some((at, _)) = next_op(&pairs, &pid(key), after) {
            walked += 1;
            after = Some(at);
        }
    }
    println!("{} {found} {walked}", start.elapsed().as_nanos());
}
