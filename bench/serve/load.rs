// Sends to servers and pulls from them over loopback, by one thread over non-blocking links, one server after another in each round:
// load ROUNDS SECONDS FOLDER NAME=KIND:PORT:PID ..., where KIND is json or binary (a broker, by the form of its headers) or redis.
// The first line of a round is a file in FOLDER that is only written and synced. The figures are medians of the rounds; the
// processor time is that of the process PID, over all rounds.
use std::collections::VecDeque;
use std::io::{ErrorKind, Read, Write};
use std::net::TcpStream;
use std::os::fd::AsRawFd;
use std::os::unix::fs::FileExt;
use std::time::{Duration, Instant};

// The system's poll.
#[repr(C)]
#[cfg_attr(target_arch = "x86_64", repr(packed))]
#[derive(Clone, Copy)]
struct Ready {
    events: u32,
    token: u64,
}

extern "C" {
    fn epoll_create1(flags: i32) -> i32;
    fn epoll_ctl(poll: i32, op: i32, fd: i32, event: *mut Ready) -> i32;
    fn epoll_wait(poll: i32, events: *mut Ready, most: i32, timeout: i32) -> i32;
    fn close(fd: i32) -> i32;
}

const IN: u32 = 1;
const OUT: u32 = 4;

#[derive(Clone, Copy, PartialEq)]
enum Kind {
    Json,
    Binary,
    Redis,
}

struct Server {
    name: String,
    kind: Kind,
    port: u16,
    pid: u32,
}

#[derive(Clone, Copy)]
enum Work {
    // Bodies of so many bytes.
    Send(usize),
    // Pulls of 32 messages of 1 KiB.
    Pull,
}

#[derive(Clone, Copy)]
struct Shape {
    work: Work,
    links: usize,
    in_flight: usize,
}

const PULLED: usize = 10_016; // how many messages stand to be pulled, a multiple of 32
const NUMBER: &str = "1000000000"; // nine digits of a request's number, or of a place in a stream, are put over this
const OFFSET: &str = "0000000000"; // and those of a queue's offset over this

// What changes from one request to the next.
enum Place {
    Nothing,
    Bytes(usize),
    Digits(usize),
}

struct Template {
    bytes: Vec<u8>,
    at: Place,
}

impl Template {
    fn put(&self, out: &mut Vec<u8>, number: u32) {
        let from = out.len();
        out.extend_from_slice(&self.bytes);
        match self.at {
            Place::Nothing => {}
            Place::Bytes(at) => out[from + at..from + at + 4].copy_from_slice(&number.to_be_bytes()),
            Place::Digits(at) => {
                let mut rest = number;
                for k in (1..NUMBER.len()).rev() {
                    out[from + at + k] = b'0' + (rest % 10) as u8;
                    rest /= 10;
                }
            }
        }
    }
}

fn digits(bytes: &[u8], what: &str) -> Place {
    Place::Digits(bytes.windows(what.len()).position(|part| part == what.as_bytes()).expect("digits to change"))
}

fn frame(kind: Kind, code: u16, fields: &[(&str, &str)], body: &[u8]) -> Vec<u8> {
    let mut header = Vec::new();
    if kind == Kind::Binary {
        header.extend_from_slice(&code.to_be_bytes());
        header.extend_from_slice(&[0, 1, 139]); // the language, and the version
        header.extend_from_slice(&[0; 12]); // opaque, flag, no remark
        let size: usize = fields.iter().map(|(name, value)| 6 + name.len() + value.len()).sum();
        header.extend_from_slice(&(size as u32).to_be_bytes());
        for (name, value) in fields {
            header.extend_from_slice(&(name.len() as u16).to_be_bytes());
            header.extend_from_slice(name.as_bytes());
            header.extend_from_slice(&(value.len() as u32).to_be_bytes());
            header.extend_from_slice(value.as_bytes());
        }
    } else {
        let pairs: Vec<String> = fields.iter().map(|(name, value)| format!("\"{name}\":\"{value}\"")).collect();
        header = format!("{{\"code\":{code},\"extFields\":{{{}}},\"flag\":0,\"language\":\"JAVA\",\"opaque\":{NUMBER},\
                          \"serializeTypeCurrentRPC\":\"JSON\",\"version\":395}}", pairs.join(",")).into_bytes();
    }
    let mut bytes = ((4 + header.len() + body.len()) as u32).to_be_bytes().to_vec();
    bytes.extend_from_slice(&(header.len() as u32 | u32::from(kind == Kind::Binary) << 24).to_be_bytes());
    bytes.extend_from_slice(&header);
    bytes.extend_from_slice(body);
    bytes
}

fn words(words: &[&[u8]]) -> Vec<u8> {
    let mut bytes = format!("*{}\r\n", words.len()).into_bytes();
    for word in words {
        bytes.extend_from_slice(format!("${}\r\n", word.len()).as_bytes());
        bytes.extend_from_slice(word);
        bytes.extend_from_slice(b"\r\n");
    }
    bytes
}

fn body_of(size: usize) -> Vec<u8> {
    (0..size).map(|k| b'a' + (k * 7 % 26) as u8).collect()
}

// The request of this work; `fill` is a send of what is pulled later.
fn template(kind: Kind, work: Work, fill: bool) -> Template {
    let topic = if fill || matches!(work, Work::Pull) { "pulled" } else { "sent" };
    let bytes = match (kind, work) {
        (Kind::Redis, Work::Send(size)) => {
            let id = if fill { format!("1-{NUMBER}") } else { String::from("*") };
            words(&[b"XADD", topic.as_bytes(), id.as_bytes(), b"b", &body_of(size)])
        }
        (Kind::Redis, Work::Pull) => {
            words(&[b"XREAD", b"COUNT", b"32", b"STREAMS", topic.as_bytes(), format!("1-{NUMBER}").as_bytes()])
        }
        (_, Work::Send(size)) => {
            let fields = [("a", "bench"), ("b", topic), ("c", "TBW102"), ("d", "4"), ("e", "0"), ("f", "0"), ("g", "1700000000000"),
                          ("h", "0"), ("i", ""), ("j", "0"), ("k", "false")];
            frame(kind, 310, &fields, &body_of(size))
        }
        (_, Work::Pull) => {
            let fields = [("consumerGroup", "bench"), ("topic", topic), ("queueId", "0"), ("queueOffset", OFFSET), ("maxMsgNums", "32"),
                          ("sysFlag", "0"), ("commitOffset", "0"), ("suspendTimeoutMillis", "0"), ("subVersion", "0")];
            frame(kind, 11, &fields, b"")
        }
    };
    let at = match (kind, work) {
        (Kind::Redis, Work::Send(_)) if !fill => Place::Nothing,
        (Kind::Binary, Work::Send(_)) => Place::Bytes(13),
        (Kind::Redis | Kind::Json, Work::Send(_)) | (Kind::Redis, Work::Pull) => digits(&bytes, NUMBER),
        (_, Work::Pull) => digits(&bytes, OFFSET),
    };
    Template { bytes, at }
}

// How many bytes the first reply of these has, once it is whole.
fn reply_size(kind: Kind, bytes: &[u8]) -> Option<usize> {
    if kind == Kind::Redis {
        return redis_size(bytes);
    }
    let size = 4 + u32::from_be_bytes(bytes.get(..4)?.try_into().unwrap()) as usize;
    (size <= bytes.len()).then_some(size)
}

fn redis_size(bytes: &[u8]) -> Option<usize> {
    let line = bytes.windows(2).position(|part| part == b"\r\n")? + 2;
    let number = || std::str::from_utf8(&bytes[1..line - 2]).unwrap().parse::<i64>().unwrap();
    match bytes[0] {
        b'$' if number() >= 0 => {
            let size = line + number() as usize + 2;
            (size <= bytes.len()).then_some(size)
        }
        b'*' => {
            let mut at = line;
            for _ in 0..number().max(0) {
                at += redis_size(bytes.get(at..)?)?;
            }
            Some(at)
        }
        _ => Some(line),
    }
}

fn look_at(kind: Kind, work: Work, reply: &[u8]) {
    let good = match kind {
        Kind::Redis => reply[0] == b'$' || reply[0] == b'*' || reply[0] == b':',
        Kind::Binary => reply[8..10] == [0, 0],
        Kind::Json => reply[8..].starts_with(b"{\"code\":0,"),
    };
    let long = matches!(work, Work::Send(_)) || reply.len() > 32 * 1024;
    assert!(good && long, "a reply: {}", String::from_utf8_lossy(&reply[..reply.len().min(300)]));
}

struct Link {
    stream: TcpStream,
    out: Vec<u8>,
    sent: usize,
    held: Vec<u8>,
    since: VecDeque<Instant>,
    watches_out: bool,
}

impl Link {
    fn new(port: u16) -> Link {
        let stream = TcpStream::connect(("127.0.0.1", port)).expect("a link");
        stream.set_nodelay(true).unwrap();
        stream.set_nonblocking(true).unwrap();
        Link { stream, out: Vec::new(), sent: 0, held: Vec::new(), since: VecDeque::new(), watches_out: false }
    }

    fn write(&mut self) {
        while self.sent < self.out.len() {
            match self.stream.write(&self.out[self.sent..]) {
                Ok(n) => self.sent += n,
                Err(e) if e.kind() == ErrorKind::WouldBlock => return,
                Err(e) => panic!("a write: {e}"),
            }
        }
        self.out.clear();
        self.sent = 0;
    }

    fn read(&mut self, buffer: &mut [u8]) {
        loop {
            match self.stream.read(buffer) {
                Ok(0) => panic!("the server closed a link"),
                Ok(n) => {
                    self.held.extend_from_slice(&buffer[..n]);
                    if n < buffer.len() {
                        return;
                    }
                }
                Err(e) if e.kind() == ErrorKind::WouldBlock => return,
                Err(e) => panic!("a read: {e}"),
            }
        }
    }
}

// When the work ends.
#[derive(Clone, Copy)]
enum Until {
    Time(Duration),
    Count(usize),
}

struct Figures {
    rate: f64,
    p50: f64,
    p99: f64,
    count: usize,
}

fn quantile(sorted: &[u64], part: f64) -> f64 {
    sorted[((sorted.len() - 1) as f64 * part) as usize] as f64 / 1000.0
}

// Keeps the links busy until the end, and waits for all replies.
fn run(server: &Server, shape: Shape, fill: bool, until: Until) -> Figures {
    let template = template(server.kind, shape.work, fill);
    let poll = unsafe { epoll_create1(0) };
    let mut links: Vec<Link> = (0..shape.links).map(|_| Link::new(server.port)).collect();
    for (k, link) in links.iter().enumerate() {
        let mut ready = Ready { events: IN, token: k as u64 };
        assert_eq!(unsafe { epoll_ctl(poll, 1, link.stream.as_raw_fd(), &mut ready) }, 0);
    }
    let mut buffer = vec![0; 1 << 18];
    let mut took: Vec<u64> = Vec::new();
    let mut asked = 0;
    let began = Instant::now();
    let goes_on = |asked: usize| match until {
        Until::Time(time) => began.elapsed() < time,
        Until::Count(count) => asked < count,
    };
    let mut events = [Ready { events: 0, token: 0 }; 128];
    let mut first = true;
    loop {
        let number = if first {
            shape.links
        } else {
            let found = unsafe { epoll_wait(poll, events.as_mut_ptr(), 128, 10_000) };
            assert!(found > 0, "no reply for ten seconds");
            found as usize
        };
        for i in 0..number {
            let k = if first { i } else { events[i].token as usize };
            let link = &mut links[k];
            if !first {
                link.read(&mut buffer);
                let mut at = 0;
                while let Some(size) = reply_size(server.kind, &link.held[at..]).filter(|_| at < link.held.len()) {
                    look_at(server.kind, shape.work, &link.held[at..at + size]);
                    took.push(link.since.pop_front().expect("a request of the reply").elapsed().as_nanos() as u64);
                    at += size;
                }
                link.held.drain(..at);
            }
            while link.since.len() < shape.in_flight && goes_on(asked) {
                let number = match shape.work {
                    Work::Send(_) => asked + 1,
                    Work::Pull => asked * 32 % PULLED,
                };
                template.put(&mut link.out, number as u32);
                link.since.push_back(Instant::now());
                asked += 1;
            }
            link.write();
            let wants = !link.out.is_empty();
            if wants != link.watches_out {
                link.watches_out = wants;
                let mut ready = Ready { events: if wants { IN | OUT } else { IN }, token: k as u64 };
                assert_eq!(unsafe { epoll_ctl(poll, 3, link.stream.as_raw_fd(), &mut ready) }, 0);
            }
        }
        first = false;
        if took.len() == asked && !goes_on(asked) {
            break;
        }
    }
    let spent = began.elapsed().as_secs_f64();
    unsafe { close(poll) };
    took.sort_unstable();
    Figures { rate: took.len() as f64 / spent, p50: quantile(&took, 0.5), p99: quantile(&took, 0.99), count: took.len() }
}

// The processor time that a process took, in microseconds.
fn processor_time(pid: u32) -> f64 {
    let text = std::fs::read_to_string(format!("/proc/{pid}/stat")).expect("the server's process");
    let fields: Vec<&str> = text[text.rfind(')').unwrap() + 2..].split(' ').collect();
    (fields[11].parse::<f64>().unwrap() + fields[12].parse::<f64>().unwrap()) * 10_000.0
}

// Redis keeps what it has in memory: what was sent is dropped before the next turn.
fn forget(server: &Server) {
    if server.kind == Kind::Redis {
        let mut stream = TcpStream::connect(("127.0.0.1", server.port)).expect("a link");
        stream.write_all(&words(&[b"UNLINK", b"sent"])).unwrap();
        let mut room = [0; 64];
        assert!(stream.read(&mut room).unwrap() > 0);
    }
}

fn only_write(folder: &str, size: usize, time: Duration) -> f64 {
    let path = format!("{folder}/only_written");
    let file = std::fs::File::create(&path).expect("a file");
    let (began, body, mut count) = (Instant::now(), body_of(size), 0);
    while began.elapsed() < time {
        file.write_all_at(&body, count * size as u64).unwrap();
        file.sync_data().unwrap();
        count += 1;
    }
    let rate = count as f64 / began.elapsed().as_secs_f64();
    std::fs::remove_file(path).unwrap();
    rate
}

fn median(mut values: Vec<f64>) -> f64 {
    values.sort_by(f64::total_cmp);
    let half = values.len() / 2;
    if values.len() % 2 == 1 { values[half] } else { (values[half - 1] + values[half]) / 2.0 }
}

fn machine() -> String {
    let load = std::fs::read_to_string("/proc/loadavg").unwrap_or_default();
    let part = load.split(' ').take(3).collect::<Vec<_>>().join(" ");
    format!("{} processors, load {part}", std::thread::available_parallelism().map_or(0, |n| n.get()))
}

fn name_of(shape: &Shape) -> String {
    match shape.work {
        Work::Send(size) => format!("{size} B, {} x {}", shape.links, shape.in_flight),
        Work::Pull => format!("pulls of 32, {} x {}", shape.links, shape.in_flight),
    }
}

fn main() {
    let args: Vec<String> = std::env::args().collect();
    let rounds: usize = args[1].parse().expect("ROUNDS");
    let time = Duration::from_secs_f64(args[2].parse().expect("SECONDS"));
    let folder = &args[3];
    let servers: Vec<Server> = args[4..].iter().map(|arg| {
        let (name, rest) = arg.split_once('=').expect("NAME=KIND:PORT:PID");
        let parts: Vec<&str> = rest.split(':').collect();
        let kind = match parts[0] {
            "json" => Kind::Json,
            "binary" => Kind::Binary,
            _ => Kind::Redis,
        };
        Server { name: name.into(), kind, port: parts[1].parse().expect("PORT"), pid: parts[2].parse().expect("PID") }
    }).collect();
    println!("before: {}", machine());
    let mut filled = Vec::new();
    for server in &servers {
        if !filled.contains(&server.port) {
            let shape = Shape { work: Work::Send(1024), links: 1, in_flight: 64 };
            run(server, shape, true, Until::Count(PULLED + 32));
            filled.push(server.port);
        }
    }
    let mut shapes = Vec::new();
    for size in [1024, 200] {
        for (links, in_flight) in [(1, 1), (16, 1), (64, 1), (1, 64), (16, 32)] {
            shapes.push(Shape { work: Work::Send(size), links, in_flight });
        }
    }
    for links in [1, 16] {
        shapes.push(Shape { work: Work::Pull, links, in_flight: 1 });
    }
    if let Ok(row) = std::env::var("ROW") {
        shapes.retain(|shape| name_of(shape) == row);
    }
    println!("{:<26} {:<16} {:>9} {:>7} {:>9} {:>9} {:>9}", "", "", "a second", "ratio", "p50, us", "p99, us", "cpu, us");
    for shape in shapes {
        let what = name_of(&shape);
        let mut figures: Vec<Vec<Figures>> = servers.iter().map(|_| Vec::new()).collect();
        let mut spent = vec![0.0; servers.len()];
        let mut alone = Vec::new();
        for _ in 0..rounds {
            if let (Work::Send(size), 1, 1) = (shape.work, shape.links, shape.in_flight) {
                alone.push(only_write(folder, size, time));
            }
            for (k, server) in servers.iter().enumerate() {
                let before = processor_time(server.pid);
                figures[k].push(run(server, shape, false, Until::Time(time)));
                spent[k] += processor_time(server.pid) - before;
                forget(server);
            }
        }
        if !alone.is_empty() {
            println!("{what:<26} {:<16} {:>9.0}", "write and sync", median(alone));
        }
        let beside = servers.iter().position(|server| server.kind == Kind::Redis).unwrap_or(0);
        for (k, server) in servers.iter().enumerate() {
            let of = |get: fn(&Figures) -> f64| median(figures[k].iter().map(get).collect());
            let ratio = median(figures[k].iter().zip(&figures[beside]).map(|(mine, other)| mine.rate / other.rate).collect());
            let count: usize = figures[k].iter().map(|round| round.count).sum();
            println!("{what:<26} {:<16} {:>9.0} {ratio:>7.2} {:>9.0} {:>9.0} {:>9.1}", server.name, of(|f| f.rate), of(|f| f.p50),
                     of(|f| f.p99), spent[k] / count as f64);
        }
    }
    println!("after: {}", machine());
}
