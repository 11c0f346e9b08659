//! The same work as `main.txt` in plain Rust, with a reader written by hand: `plain json` or `plain binary`.
use std::collections::BTreeMap;

const FRAMES: usize = 100_000;
const FRAME: usize = 1024;
const PIECE: usize = 65_536;

const JSON: &[u8] = b"\x00\x00\x03\xFC\x00\x00\x01\x00{\"code\":10,\"extFields\":{\"bornTimestamp\":\"1000\",\"defaultTopic\":\"TBW102\",\"defaultTopicQueueNums\":\"4\",\"flag\":\"0\",\"producerGroup\":\"P\",\"queueId\":\"0\",\"sysFlag\":\"0\",\"topic\":\"T\"},\"flag\":0,\"language\":\"JAVA\",\"opaque\":7,\"serializeTypeCurrentRPC\":\"JSON\",\"version\":395}";
const BINARY: &[u8] = b"\x00\x00\x03\xFC\x01\x00\x00\x2F\x00\x1E\x00\x01\x8B\x00\x00\x00\x05\x00\x00\x00\x00\x00\x00\x00\x00\x00\x00\x00\x1A\x00\x05topic\x00\x00\x00\x01T\x00\x07queueId\x00\x00\x00\x010";

#[derive(Default)]
struct Header {
    code: i32,
    version: i32,
    opaque: i32,
    flag: i32,
    remark: String,
    ext: BTreeMap<String, String>,
}

struct Json<'a> {
    bytes: &'a [u8],
    at: usize,
}

impl Json<'_> {
    fn take(&mut self, byte: u8) -> Option<()> {
        (*self.bytes.get(self.at)? == byte).then(|| self.at += 1)
    }

    // Escapes don't come in this stream.
    fn text(&mut self) -> Option<String> {
        self.take(b'"')?;
        let len = self.bytes[self.at..].iter().position(|it| *it == b'"')?;
        let text = std::str::from_utf8(&self.bytes[self.at..self.at + len]).ok()?;
        self.at += len + 1;
        (!text.contains('\\')).then(|| text.to_string())
    }

    fn number(&mut self) -> Option<i32> {
        let rest = &self.bytes[self.at..];
        let len = rest.iter().position(|it| !it.is_ascii_digit() && *it != b'-')?;
        self.at += len;
        std::str::from_utf8(&rest[..len]).ok()?.parse().ok()
    }

    fn pairs(&mut self) -> Option<BTreeMap<String, String>> {
        let mut pairs = BTreeMap::new();
        self.take(b'{')?;
        loop {
            let name = self.text()?;
            self.take(b':')?;
            pairs.insert(name, self.text()?);
            if self.take(b',').is_none() {
                return self.take(b'}').map(|()| pairs);
            }
        }
    }

    fn header(&mut self) -> Option<Header> {
        let mut header = Header::default();
        self.take(b'{')?;
        loop {
            let name = self.text()?;
            self.take(b':')?;
            match name.as_str() {
                "code" => header.code = self.number()?,
                "version" => header.version = self.number()?,
                "opaque" => header.opaque = self.number()?,
                "flag" => header.flag = self.number()?,
                "remark" => header.remark = self.text()?,
                "extFields" => header.ext = self.pairs()?,
                _ => drop(self.text()?),
            }
            if self.take(b',').is_none() {
                return self.take(b'}').map(|()| header);
            }
        }
    }
}

fn u32_at(bytes: &[u8], at: usize) -> Option<usize> {
    Some(u32::from_be_bytes(bytes.get(at..at + 4)?.try_into().ok()?) as usize)
}

fn u16_at(bytes: &[u8], at: usize) -> Option<usize> {
    Some(u16::from_be_bytes(bytes.get(at..at + 2)?.try_into().ok()?) as usize)
}

fn text_at(bytes: &[u8], at: usize, len: usize) -> Option<String> {
    Some(std::str::from_utf8(bytes.get(at..at + len)?).ok()?.to_string())
}

fn binary(bytes: &[u8]) -> Option<Header> {
    let remark = u32_at(bytes, 13)?;
    let mut at = 21 + remark;
    let mut ext = BTreeMap::new();
    while at < bytes.len() {
        let name = u16_at(bytes, at)?;
        let value = u32_at(bytes, at + 2 + name)?;
        ext.insert(text_at(bytes, at + 2, name)?, text_at(bytes, at + 6 + name, value)?);
        at += 6 + name + value;
    }
    Some(Header {
        code: u16_at(bytes, 0)? as i16 as i32,
        version: u16_at(bytes, 3)? as i16 as i32,
        opaque: u32_at(bytes, 5)? as i32,
        flag: u32_at(bytes, 9)? as i32,
        remark: text_at(bytes, 17, remark)?,
        ext,
    })
}

// The first frame's length, header and body, once all its bytes are there.
fn first(held: &[u8]) -> Option<(usize, Header, Vec<u8>)> {
    let len = 4 + u32_at(held, 0)?;
    let word = u32_at(held, 4)?;
    let frame = held.get(..len)?;
    let behind = 8 + (word & 0xFF_FFFF);
    let header = match word >> 24 {
        0 => Json { bytes: &frame[8..behind], at: 0 }.header()?,
        _ => binary(&frame[8..behind])?,
    };
    Some((len, header, frame[behind..].to_vec()))
}

fn main() {
    let front = if std::env::args().nth(1).as_deref() == Some("json") { JSON } else { BINARY };
    let mut frame = front.to_vec();
    frame.resize(FRAME, 0);
    let stream = frame.repeat(FRAMES);
    let (mut held, mut count) = (Vec::new(), 0);
    for piece in stream.chunks(PIECE) {
        held.extend_from_slice(piece);
        let mut at = 0;
        while let Some((len, header, body)) = first(&held[at..]) {
            at += len;
            count += 1;
            std::hint::black_box((header.code, header.version, header.opaque, header.flag, &header.remark, &header.ext, &body));
        }
        held.drain(..at);
    }
    assert_eq!(count, FRAMES);
}
