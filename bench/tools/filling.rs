//! What `gen` does: the same requests in the same rounds leave the same file, byte for byte.
//!
//! A small broker over one file has tables of queues, keys, half messages and delay levels while it goes. At the end the file is read
//! back, tables are made of its records, and the two are compared.
use crate::records::{Record, Sums, each, pairs, push_pair, value_of, without};
use std::collections::{BTreeSet, HashMap, VecDeque};
use std::fs::File;
use std::os::unix::fs::FileExt;

const HALF_TOPIC: &str = "RMQ_SYS_TRANS_HALF_TOPIC";
const OP_TOPIC: &str = "RMQ_SYS_TRANS_OP_HALF_TOPIC";
const LEVEL_TOPIC: &str = "SCHEDULE_TOPIC_XXXX";

/// The transaction bits of a committed copy.
const COPY: u32 = 8;

/// How long the messages of each delay level wait, in milliseconds.
const DELAYS: [u64; 18] = [
    1_000, 5_000, 10_000, 30_000, 60_000, 120_000, 180_000, 240_000, 300_000, 360_000, 420_000, 480_000, 540_000, 600_000, 1_200_000,
    1_800_000, 3_600_000, 7_200_000,
];

/// How long after its store time a half message is due for its first check, in milliseconds.
const FIRST_CHECK: u64 = 6_000;

fn java_hash(bytes: impl Iterator<Item = u8>) -> i32 {
    bytes.fold(0, |hash, byte| hash.wrapping_mul(31).wrapping_add(byte.into()))
}

// ---- the tables

#[derive(PartialEq)]
struct Unit {
    place: u64,
    size: u32,
    tag: i64,
    store: u64,
}

#[derive(PartialEq)]
struct Key {
    place: u64,
    store: u64,
    /// The key before it with the same hash.
    before: Option<u32>,
}

/// The keys of all records, and of each hash the newest.
#[derive(Default, PartialEq)]
struct Keys {
    newest: HashMap<u32, u32>,
    rows: Vec<Key>,
}

impl Keys {
    fn add(&mut self, key: &str, record: &Record<'_>) {
        let hash = java_hash(record.topic.bytes().chain([b'#']).chain(key.bytes())).unsigned_abs();
        let before = self.newest.insert(hash, self.rows.len() as u32);
        self.rows.push(Key { place: record.place, store: record.store, before });
    }
}

#[derive(Clone, Copy, PartialEq)]
enum State {
    Open,
    Committed,
    RolledBack,
}

#[derive(PartialEq)]
struct Half {
    place: u64,
    due: u64,
    group: String,
    state: State,
}

/// When the messages of a level are due, and how many were delivered.
#[derive(Default, PartialEq)]
struct Level {
    times: Vec<u64>,
    delivered: u64,
}

/// What a log says.
#[derive(Default, PartialEq)]
struct Tables {
    records: u64,
    queues: HashMap<String, HashMap<u32, Vec<Unit>>>,
    keys: Keys,
    halves: Vec<Half>,
    /// The open half messages by the time of their next check.
    due: BTreeSet<(u64, usize)>,
    levels: [Level; DELAYS.len()],
}

impl Tables {
    fn queue(&self, topic: &str, queue: u32) -> &[Unit] {
        self.queues.get(topic).and_then(|queues| queues.get(&queue)).map_or(&[], Vec::as_slice)
    }

    fn add(&mut self, record: &Record<'_>) {
        self.records += 1;
        self.add_unit(record);
        for (name, value) in pairs(record.props) {
            match name {
                "UNIQ_KEY" => self.keys.add(value, record),
                "KEYS" => value.split(' ').filter(|key| !key.is_empty()).for_each(|key| self.keys.add(key, record)),
                "DELAY_FROM" => self.add_delivery(value),
                _ => {}
            }
        }
        match record.topic {
            HALF_TOPIC => self.add_half(record),
            OP_TOPIC => self.settle(decimal(record.body) as usize, State::RolledBack),
            LEVEL_TOPIC => self.levels[record.queue as usize].times.push(record.store + DELAYS[record.queue as usize]),
            _ if record.sysflag == COPY => self.add_copy(record),
            _ => {}
        }
    }

    fn add_unit(&mut self, record: &Record<'_>) {
        let tag = match record.topic {
            LEVEL_TOPIC => (record.store + DELAYS[record.queue as usize]) as i64,
            _ => value_of(record.props, "TAGS").map_or(0, |tags| java_hash(tags.bytes()).into()),
        };
        let unit = Unit { place: record.place, size: record.size(), tag, store: record.store };
        match self.queues.get_mut(record.topic) {
            Some(queues) => queues.entry(record.queue).or_default().push(unit),
            None => {
                self.queues.insert(record.topic.to_string(), HashMap::from([(record.queue, vec![unit])]));
            }
        }
    }

    fn add_half(&mut self, record: &Record<'_>) {
        let due = record.store + FIRST_CHECK;
        let group = value_of(record.props, "PGROUP").unwrap_or_default().to_string();
        self.due.insert((due, self.halves.len()));
        self.halves.push(Half { place: record.place, due, group, state: State::Open });
    }

    fn add_copy(&mut self, record: &Record<'_>) {
        if let Ok(half) = self.halves.binary_search_by_key(&record.prepared, |half| half.place) {
            self.settle(half, State::Committed);
        }
    }

    /// The first record that settles a half message counts.
    fn settle(&mut self, number: usize, state: State) {
        let half = &mut self.halves[number];
        if half.state == State::Open {
            half.state = state;
            self.due.remove(&(half.due, number));
        }
    }

    /// A delivery says from where it is: its level, a dash, and its number there.
    fn add_delivery(&mut self, from: &str) {
        let level = from.split_once('-').and_then(|(level, _)| level.parse::<usize>().ok()).expect("a level");
        self.levels[level - 1].delivered += 1;
    }

    fn halves_in(&self, state: State) -> usize {
        self.halves.iter().filter(|half| half.state == state).count()
    }
}

fn decimal(digits: &[u8]) -> u64 {
    digits.iter().fold(0, |sum, digit| sum * 10 + u64::from(digit - b'0'))
}

// ---- the broker

/// A message as its producer sent it: with the topic and the queue that it is for.
struct Message {
    topic: String,
    queue: u32,
    group: String,
    born: u64,
    body: Vec<u8>,
    props: String,
}

impl Message {
    /// The record of it in this queue, without its place and its number there.
    fn record<'a>(&'a self, topic: &'a str, queue: u32, props: &'a str, now: u64) -> Record<'a> {
        Record {
            place: 0,
            topic,
            queue,
            offset: 0,
            sysflag: 0,
            born: self.born,
            is_own: false,
            store: now,
            prepared: 0,
            body: &self.body,
            props,
        }
    }

    /// Its properties with the topic and the queue that it is for, while it waits elsewhere.
    fn held_props(&self, dropped: &[&str]) -> String {
        let mut props = without(&self.props, dropped);
        push_pair(&mut props, "REAL_TOPIC", &self.topic);
        push_pair(&mut props, "REAL_QID", &self.queue.to_string());
        props
    }
}

/// A delayed message that is still to be delivered.
struct Waiting {
    place: u64,
    due: u64,
    number: u64,
    message: Message,
}

#[derive(Clone, Copy)]
enum Verdict {
    Commit,
    RollBack,
}

struct Broker {
    sums: Sums,
    file: File,
    /// Up to where the file is on the disk, and consumers see its records.
    flushed: u64,
    pending: Vec<u8>,
    tables: Tables,
    open: HashMap<usize, Message>,
    waiting: [VecDeque<Waiting>; DELAYS.len()],
}

impl Broker {
    fn new(path: &str) -> Broker {
        Broker {
            sums: Sums::new(),
            file: File::create_new(path).expect("a new FILE"),
            flushed: 0,
            pending: Vec::new(),
            tables: Tables::default(),
            open: HashMap::new(),
            waiting: Default::default(),
        }
    }

    /// Appends the record. Answers its place and its number in its queue.
    fn append(&mut self, record: Record<'_>) -> (u64, u64) {
        let place = self.flushed + self.pending.len() as u64;
        let offset = self.tables.queue(record.topic, record.queue).len() as u64;
        let record = Record { place, offset, ..record };
        record.write(&self.sums, &mut self.pending);
        self.tables.add(&record);
        (place, offset)
    }

    /// Answers the number that the message has in its queue.
    fn send(&mut self, message: Message, now: u64) -> u64 {
        if value_of(&message.props, "TRAN_MSG").is_some_and(|value| value.eq_ignore_ascii_case("true")) {
            return self.send_half(message, now);
        }
        match value_of(&message.props, "DELAY").and_then(|level| level.parse::<usize>().ok()) {
            Some(level) if level > 0 => self.send_delayed(message, level.min(DELAYS.len()) - 1, now),
            _ => self.append(message.record(&message.topic, message.queue, &message.props, now)).1,
        }
    }

    fn send_half(&mut self, message: Message, now: u64) -> u64 {
        let mut props = message.held_props(&["DELAY"]);
        push_pair(&mut props, "PGROUP", &message.group);
        let (_, number) = self.append(message.record(HALF_TOPIC, 0, &props, now));
        self.open.insert(number as usize, message);
        number
    }

    fn send_delayed(&mut self, message: Message, level: usize, now: u64) -> u64 {
        let props = message.held_props(&[]);
        let (place, number) = self.append(message.record(LEVEL_TOPIC, level as u32, &props, now));
        self.waiting[level].push_back(Waiting { place, due: now + DELAYS[level], number, message });
        number
    }

    /// The verdict of a group on the half message with this number; it counts where that is open, and the group's.
    fn end(&mut self, number: u64, group: &str, verdict: Verdict, now: u64) {
        let half = &self.tables.halves[number as usize];
        if half.state != State::Open || half.group != group {
            return;
        }
        let prepared = half.place;
        let message = self.open.remove(&(number as usize)).expect("an open half message");
        if let Verdict::Commit = verdict {
            let mut props = without(&message.props, &["TRAN_MSG"]);
            push_pair(&mut props, "PGROUP", group);
            self.append(Record { sysflag: COPY, prepared, ..message.record(&message.topic, message.queue, &props, now) });
        }
        self.append_op(number, now);
    }

    /// Says of the half message with this number that it is settled.
    fn append_op(&mut self, number: u64, now: u64) {
        let op = Message {
            topic: OP_TOPIC.to_string(),
            queue: 0,
            group: String::new(),
            born: now,
            body: number.to_string().into_bytes(),
            props: "TAGS\x01d\x02".to_string(),
        };
        self.append(Record { is_own: true, ..op.record(&op.topic, 0, &op.props, now) });
    }

    /// The places and the sizes of the first messages of the queue that consumers see.
    fn pull(&self, topic: &str, queue: u32, most: usize) -> Vec<(u64, u32)> {
        let mut found: Vec<(u64, u32)> = Vec::new();
        let mut size = 0;
        for unit in self.tables.queue(topic, queue).iter().take_while(|unit| unit.place < self.flushed) {
            if found.len() == most || size + unit.size > 262_144 {
                break;
            }
            size += unit.size;
            found.push((unit.place, unit.size));
        }
        found
    }

    /// Delivers what is due and seen, the lowest level first.
    fn deliver_due(&mut self, now: u64) {
        for level in 0..DELAYS.len() {
            while self.waiting[level].front().is_some_and(|next| next.due <= now && next.place < self.flushed) {
                let next = self.waiting[level].pop_front().expect("a message that waits");
                let mut props = without(&next.message.props, &["DELAY"]);
                push_pair(&mut props, "DELAY_FROM", &format!("{}-{}", level + 1, next.number));
                self.append(next.message.record(&next.message.topic, next.message.queue, &props, now));
            }
        }
    }

    /// Nobody here leaves a half message open until it would be checked.
    fn check_due(&self, now: u64) {
        assert!(self.tables.due.first().is_none_or(|half| half.0 > now));
    }

    fn flush(&mut self) {
        if self.pending.is_empty() {
            return;
        }
        self.file.write_all_at(&self.pending, self.flushed).expect("a write");
        self.file.sync_data().expect("a sync");
        self.flushed += self.pending.len() as u64;
        self.pending.clear();
    }

    fn round(&mut self, now: u64) {
        self.deliver_due(now);
        self.check_due(now);
        self.flush();
    }
}

// ---- the items

fn message(start: u32, item: u32, props: String) -> Message {
    Message {
        topic: "gen".to_string(),
        queue: (item + start) % 4,
        group: "P".to_string(),
        born: 1_000 + u64::from(item),
        body: item.to_string().into_bytes(),
        props,
    }
}

/// Gives an item to the broker. Answers whether it is a pull that found messages.
fn give(broker: &mut Broker, start: u32, item: u32) -> bool {
    let now = 1_000 + u64::from(item);
    let half = |broker: &mut Broker, verdict| {
        let number = broker.send(message(start, item, "TRAN_MSG\x01true\x02".to_string()), now);
        broker.end(number, "P", verdict, now);
    };
    match item % 10 {
        6 => half(broker, Verdict::Commit),
        7 => half(broker, Verdict::RollBack),
        8 => return !broker.pull("gen", (item + start) % 4, 32).is_empty(),
        9 => {
            broker.send(message(start, item, "DELAY\x011\x02".to_string()), now);
        }
        _ => {
            broker.send(message(start, item, format!("KEYS\x01{item}\x02")), now);
        }
    }
    false
}

fn print_summary(items: u32, start: u32, tables: &Tables, found: u32) {
    println!("gen {items} {start}\nrecords {}", tables.records);
    for queue in 0..4 {
        println!("queue gen {queue} {}", tables.queue("gen", queue).len());
    }
    let [committed, rolled_back, open] = [State::Committed, State::RolledBack, State::Open].map(|state| tables.halves_in(state));
    println!("halves {} committed {committed} rolledback {rolled_back} open {open}", tables.halves.len());
    println!("delayed {} delivered {}", tables.levels[0].times.len(), tables.levels[0].delivered);
    println!("pulls {} found {found}", (items + 1) / 10);
}

/// Gives so many items to a broker over a new file, reads the file back, and prints what it holds.
pub fn fill(items: u32, start: u32, path: &str) {
    let mut broker = Broker::new(path);
    let mut found = 0;
    for item in 0..items {
        if item > 0 && item % 1_000 == 0 {
            broker.round(1_000 + u64::from(item));
        }
        found += u32::from(give(&mut broker, start, item));
    }
    let end = 1_000 + u64::from(items) + 3_600_000;
    broker.round(end);
    broker.round(end);
    let mut read = Tables::default();
    each(path, |record| read.add(record));
    print_summary(items, start, &read, found);
    if read == broker.tables {
        println!("replay equal");
    }
}
