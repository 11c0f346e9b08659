//! The same work as `main.txt` over Vec, HashMap and BTreeMap: `plain WORK ASKS`.
use std::collections::{BTreeMap, BTreeSet, HashMap};

const UNITS: u32 = 1_000_000;
const HALVES: u32 = 100_000;

#[derive(Clone, Copy)]
struct Unit {
    offset: u64,
    size: u32,
    tag: i64,
    #[allow(dead_code)]
    store: u64,
}

fn after(number: u64) -> u64 {
    number
        .wrapping_mul(6_364_136_223_846_793_005)
        .wrapping_add(1_442_695_040_888_963_407)
}

// The table of a queue, found without a text made.
fn table<'a>(tables: &'a mut HashMap<String, HashMap<u32, Vec<Unit>>>, topic: &str, queue: u32) -> &'a mut Vec<Unit> {
    if !tables.contains_key(topic) {
        tables.insert(topic.to_string(), HashMap::new());
    }
    tables.get_mut(topic).unwrap().entry(queue).or_default()
}

fn queues(queues: u32, asks: u32) -> bool {
    let mut tables: HashMap<String, HashMap<u32, Vec<Unit>>> = HashMap::new();
    for at in 0..UNITS {
        table(&mut tables, "T", at % queues).push(Unit {
            offset: u64::from(at) * 108,
            size: 108,
            tag: 0,
            store: u64::from(at),
        });
    }
    let mut number = 1u64;
    for _ in 0..asks {
        number = after(number);
        let queue = (number >> 40) as u32 % queues;
        let from = ((number >> 20) % u64::from(UNITS / queues - 31)) as usize;
        let table = &tables["T"][&queue];
        let mut size = 0;
        let mut found: Vec<(u64, u32, i64)> = Vec::new();
        for unit in &table[from..] {
            if found.len() == 32 || size + unit.size > 262_144 {
                break;
            }
            if unit.tag == 0 {
                size += unit.size;
                found.push((unit.offset, unit.size, unit.tag));
            }
        }
        let place = (from as u64 * u64::from(queues) + u64::from(queue)) * 108;
        if found.len() != 32 || found[0].0 != place {
            return false;
        }
    }
    true
}

fn keys(asks: u32) -> bool {
    let mut table: HashMap<u32, Vec<(u64, u64)>> = HashMap::new();
    for at in 0..UNITS {
        table
            .entry(at.wrapping_mul(2_654_435_761))
            .or_default()
            .push((u64::from(at) * 108, u64::from(at)));
    }
    let (from, to, end) = std::hint::black_box((0, u64::MAX, u64::MAX));
    let mut number = 1u64;
    for _ in 0..asks {
        number = after(number);
        let at = ((number >> 20) % u64::from(UNITS)) as u32;
        let hash = at.wrapping_mul(2_654_435_761);
        let is_sought = |entry: &&(u64, u64)| (from..=to).contains(&entry.1) && entry.0 < end;
        let places: Vec<u64> = table[&hash].iter().rev().filter(is_sought).take(32).map(|entry| entry.0).collect();
        if places.len() != 1 || places[0] != u64::from(at) * 108 {
            return false;
        }
    }
    true
}

// Origins by queue offset, each with its time and whether it is settled, and those that are open by their time.
fn halves(asks: u32) -> bool {
    let mut rows: BTreeMap<u64, (u64, u64, bool)> = BTreeMap::new();
    let mut due: BTreeSet<(u64, u64)> = BTreeSet::new();
    for at in 0..u64::from(HALVES) {
        rows.insert(at, (at * 178, at + 6_000, false));
        due.insert((at + 6_000, at));
    }
    for at in 0..u64::from(HALVES / 8) {
        let row = rows.get_mut(&at).unwrap();
        due.remove(&(row.1, at));
        row.1 = u64::from(HALVES) + at + 60_000;
        due.insert((row.1, at));
    }
    for _ in 0..asks {
        match due.first().copied() {
            Some(first) if first.0 <= u64::from(HALVES) + 6_000 => {
                due.remove(&first);
                rows.get_mut(&first.1).unwrap().2 = true;
            }
            _ => return false,
        }
    }
    true
}

// The times of each level's messages, and how many of them were delivered.
fn levels(asks: u32) -> bool {
    let mut levels: Vec<(Vec<u64>, usize)> = vec![(Vec::new(), 0); 18];
    for at in 0..UNITS {
        levels[at as usize % 18].0.push(u64::from(at));
    }
    let now = u64::from(UNITS);
    let mut last = (0, 0);
    for _ in 0..asks {
        let due = levels.iter().position(|level| level.0.get(level.1).is_some_and(|time| *time <= now));
        let Some(next) = due.map(|level| (level, levels[level].1)) else {
            return false;
        };
        if next != last && next != (last.0 + 1, 0) {
            return false;
        }
        levels[next.0].1 += 1;
        last = (next.0, next.1 + 1);
    }
    true
}

fn main() {
    let words: Vec<String> = std::env::args().collect();
    let asks = words[2].parse().unwrap();
    let fine = match words[1].as_str() {
        "queue" => queues(1, asks),
        "queues" => queues(1_000, asks),
        "keys" => keys(asks),
        "halves" => halves(asks),
        "levels" => levels(asks),
        _ => false,
    };
    std::process::exit(i32::from(!fine));
}
