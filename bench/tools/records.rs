//! The records of a log's file, as they are written and as they are read.
use std::fs::File;
use std::io::{BufReader, Read};

const MAGIC: u32 = 0xDAA320A7;

/// How many bytes a record has besides its body, its topic and its properties.
const FIXED: usize = 91;

/// How many bytes the seal has, which is the last property of a record.
const SEAL: usize = 14;

const BORN_HOST: [u8; 8] = [127, 0, 0, 1, 0, 0, 0, 0];
const STORE_HOST: [u8; 8] = [127, 0, 0, 1, 0, 0, 42, 159];

/// The sums of sixteen bytes at a time.
pub struct Sums([[u32; 256]; 16]);

impl Sums {
    pub fn new() -> Sums {
        let mut tables = [[0u32; 256]; 16];
        for n in 0..256 {
            let mut sum = n as u32;
            for _ in 0..8 {
                sum = sum >> 1 ^ if sum & 1 == 1 { 0xEDB88320 } else { 0 };
            }
            tables[0][n] = sum;
        }
        for k in 1..16 {
            for n in 0..256 {
                tables[k][n] = tables[k - 1][n] >> 8 ^ tables[0][(tables[k - 1][n] & 255) as usize];
            }
        }
        Sums(tables)
    }

    /// The register behind these bytes.
    fn over(&self, mut sum: u32, bytes: &[u8]) -> u32 {
        let mut blocks = bytes.chunks_exact(16);
        for block in &mut blocks {
            let first = u32::from_le_bytes(block[..4].try_into().unwrap()) ^ sum;
            sum = 0;
            for k in 0..4 {
                sum ^= self.0[15 - k][(first >> 8 * k & 255) as usize];
            }
            for k in 4..16 {
                sum ^= self.0[15 - k][block[k] as usize];
            }
        }
        for byte in blocks.remainder() {
            sum = sum >> 8 ^ self.0[0][((sum ^ *byte as u32) & 255) as usize];
        }
        sum
    }

    fn of(&self, bytes: &[u8]) -> u32 {
        !self.over(!0, bytes)
    }

    /// The sum of a record whose seal is told as eight zeros.
    fn unsealed(&self, record: &[u8]) -> u32 {
        let front = self.over(!0, &record[..record.len() - 9]);
        !self.over(front, b"00000000\x02")
    }
}

fn number(bytes: &[u8], at: usize, width: usize) -> u64 {
    bytes[at..at + width].iter().fold(0, |sum, byte| sum << 8 | *byte as u64)
}

/// What a record says. Its properties are those before the seal.
#[derive(Clone, Copy)]
pub struct Record<'a> {
    pub place: u64,
    pub topic: &'a str,
    pub queue: u32,
    pub offset: u64,
    pub sysflag: u32,
    pub born: u64,
    /// Whether the broker itself made it, and no client.
    pub is_own: bool,
    pub store: u64,
    /// The place of the half message of which it is the copy.
    pub prepared: u64,
    pub body: &'a [u8],
    pub props: &'a str,
}

impl Record<'_> {
    pub fn size(&self) -> u32 {
        (FIXED + self.body.len() + self.topic.len() + self.props.len() + SEAL) as u32
    }

    /// Appends its bytes.
    pub fn write(&self, sums: &Sums, out: &mut Vec<u8>) {
        let start = out.len();
        let born_host = if self.is_own { STORE_HOST } else { BORN_HOST };
        out.extend(self.size().to_be_bytes());
        out.extend(MAGIC.to_be_bytes());
        out.extend((sums.of(self.body) & 0x7FFFFFFF).to_be_bytes());
        out.extend(self.queue.to_be_bytes());
        out.extend(0u32.to_be_bytes()); // the flag
        out.extend(self.offset.to_be_bytes());
        out.extend(self.place.to_be_bytes());
        out.extend(self.sysflag.to_be_bytes());
        out.extend(self.born.to_be_bytes());
        out.extend(born_host);
        out.extend(self.store.to_be_bytes());
        out.extend(STORE_HOST);
        out.extend(0u32.to_be_bytes()); // reconsume times
        out.extend(self.prepared.to_be_bytes());
        out.extend((self.body.len() as u32).to_be_bytes());
        out.extend(self.body);
        out.push(self.topic.len() as u8);
        out.extend(self.topic.as_bytes());
        out.extend(((self.props.len() + SEAL) as u16).to_be_bytes());
        out.extend(self.props.as_bytes());
        out.extend(b"SEAL\x0100000000\x02");
        let digits = out.len() - 9;
        let mut seal = sums.of(&out[start..]);
        for digit in out[digits..digits + 8].iter_mut().rev() {
            *digit = b"0123456789ABCDEF"[(seal & 15) as usize];
            seal >>= 4;
        }
    }
}

/// What these bytes say, if they are a record that is at its place.
fn read<'a>(sums: &Sums, bytes: &'a [u8], place: u64) -> Option<Record<'a>> {
    let body = number(bytes, 84, 4) as usize;
    let topic = *bytes.get(88 + body)? as usize;
    let props = number(bytes.get(89 + body + topic..91 + body + topic)?, 0, 2) as usize;
    if bytes.len() != FIXED + body + topic + props || props < SEAL {
        return None;
    }
    let (front, text) = bytes.split_at(91 + body + topic);
    let (props, seal) = std::str::from_utf8(text).ok()?.split_at_checked(props - SEAL)?;
    let digits = seal.strip_prefix("SEAL\x01")?.strip_suffix('\x02')?;
    let record = Record {
        place,
        topic: std::str::from_utf8(&front[89 + body..89 + body + topic]).ok()?,
        queue: number(bytes, 12, 4) as u32,
        offset: number(bytes, 20, 8),
        sysflag: number(bytes, 36, 4) as u32,
        born: number(bytes, 40, 8),
        is_own: bytes[48..56] == STORE_HOST,
        store: number(bytes, 56, 8),
        prepared: number(bytes, 76, 8),
        body: &bytes[88..88 + body],
        props,
    };
    let is_sound = number(bytes, 4, 4) == MAGIC as u64
        && number(bytes, 28, 8) == place
        && number(bytes, 8, 4) == (sums.of(record.body) & 0x7FFFFFFF) as u64
        && u32::from_str_radix(digits, 16) == Ok(sums.unsealed(bytes));
    is_sound.then_some(record)
}

/// Goes through the records of the file. Answers how many there are, and where the last one ends.
pub fn each(path: &str, mut what: impl FnMut(&Record<'_>)) -> (u64, u64) {
    let sums = Sums::new();
    let mut file = BufReader::with_capacity(1 << 20, File::open(path).expect("FILE"));
    let (mut bytes, mut place, mut count) = (Vec::new(), 0, 0);
    loop {
        bytes.resize(4, 0);
        if file.read_exact(&mut bytes).is_err() {
            return (count, place);
        }
        let size = number(&bytes, 0, 4) as usize;
        bytes.resize(size, 0);
        if size < FIXED || file.read_exact(&mut bytes[4..]).is_err() {
            return (count, place);
        }
        match read(&sums, &bytes, place) {
            Some(record) => what(&record),
            None => return (count, place),
        }
        (place, count) = (place + size as u64, count + 1);
    }
}

/// The properties of this text, each with its name.
pub fn pairs(props: &str) -> impl Iterator<Item = (&str, &str)> {
    props.split_terminator('\x02').filter_map(|pair| pair.split_once('\x01'))
}

/// The value of the property with this name.
pub fn value_of<'a>(props: &'a str, name: &str) -> Option<&'a str> {
    pairs(props).find(|pair| pair.0 == name).map(|pair| pair.1)
}

/// Appends a property.
pub fn push_pair(props: &mut String, name: &str, value: &str) {
    for text in [name, "\x01", value, "\x02"] {
        props.push_str(text);
    }
}

/// The properties without those of these names.
pub fn without(props: &str, names: &[&str]) -> String {
    let mut rest = String::with_capacity(props.len() + 32);
    for (name, value) in pairs(props).filter(|pair| !names.contains(&pair.0)) {
        push_pair(&mut rest, name, value);
    }
    rest
}
