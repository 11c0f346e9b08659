"""Messages: what is sent, and what comes back of it.

A record, as a pull's body has one after another:

| bytes | field                       | bytes | field                       |
|------:|-----------------------------|------:|-----------------------------|
| 4     | size of the whole record    | 8     | store time, milliseconds    |
| 4     | magic 0xDAA320A7            | 8     | store host                  |
| 4     | CRC-32 of the body, 31 bits | 4     | how often it was sent back  |
| 4     | queue                       | 8     | place of its half message   |
| 4     | flag                        | 4, n  | body                        |
| 8     | offset in the queue         | 1, n  | topic                       |
| 8     | place in the log            | 2, n  | properties                  |
| 4     | system flag                 |       |                             |
| 8     | born time, milliseconds     |       |                             |
| 8     | born host                   |       |                             |

Properties are name, byte 1, value, byte 2, one after another.
"""
from __future__ import annotations

import struct
import uuid
import zlib
from dataclasses import dataclass, field
from typing import Dict, List, Mapping, Optional, Sequence, Tuple, Union

from .codes import COMPRESSED
from .errors import ProtocolError

MAGIC = 0xDAA320A7
_HEAD = struct.Struct(">IIIIiQQIQ8sQ8siQI")  # up to the length of the body

Body = Union[bytes, bytearray, memoryview, str]


@dataclass(frozen=True)
class Message:
    """A message as the broker has it. Times are milliseconds since 1970."""

    topic: str
    queue: int
    queue_offset: int
    body: bytes
    properties: Mapping[str, str]
    message_id: str
    place: int
    born_time: int
    store_time: int
    reconsume_times: int = 0
    flag: int = 0
    system_flag: int = 0

    @property
    def tags(self) -> str:
        """Its tag, empty where it has none."""
        return self.properties.get("TAGS", "")

    @property
    def keys(self) -> Tuple[str, ...]:
        """Its keys."""
        return tuple(self.properties.get("KEYS", "").split())

    @property
    def unique_key(self) -> str:
        """The key that its producer made for it alone, empty where it made none."""
        return self.properties.get("UNIQ_KEY", "")

    @property
    def is_compressed(self) -> bool:
        """Whether its producer said that the body is compressed; the body is given as it was sent."""
        return bool(self.system_flag & COMPRESSED)

    def text(self) -> str:
        """The body read as UTF-8; bytes that aren't are shown as a replacement character."""
        return self.body.decode(errors="replace")


@dataclass(frozen=True)
class Outgoing:
    """A message to be sent: one of a batch."""

    body: Body
    tags: Optional[str] = None
    keys: Union[str, Sequence[str]] = ()
    properties: Mapping[str, str] = field(default_factory=dict)

    def body_bytes(self) -> bytes:
        """The body, a text as UTF-8."""
        return self.body.encode() if isinstance(self.body, str) else bytes(self.body)

    def all_properties(self, more: Mapping[str, str]) -> Dict[str, str]:
        """Its properties with tags, keys, a unique key and these further ones."""
        found = dict(self.properties)
        if self.tags:
            found["TAGS"] = self.tags
        keys = self.keys if isinstance(self.keys, str) else " ".join(self.keys)
        if keys:
            found["KEYS"] = keys
        found.setdefault("UNIQ_KEY", uuid.uuid4().hex.upper())
        found.update(more)
        return found


def property_text(properties: Mapping[str, str]) -> str:
    """Properties as a send has them. `ValueError` where a name or a value can't be one."""
    for name, value in properties.items():
        if not name or any(byte in text for byte in "\x01\x02" for text in (name, value)):
            raise ValueError(f"no property: {name!r} with the value {value!r}")
    return "".join(f"{name}\x01{value}\x02" for name, value in properties.items())


def read_properties(text: str) -> Dict[str, str]:
    """The properties of a record, without the seal that the broker puts there for itself."""
    pairs = (piece.partition("\x01") for piece in text.split("\x02") if piece)
    return {name: value for name, _, value in pairs if name != "SEAL"}


def read_records(data: bytes) -> List[Message]:
    """The messages of a reply's body. `ProtocolError` where it has anything else."""
    found: List[Message] = []
    at = 0
    while at < len(data):
        size = int.from_bytes(data[at:at + 4], "big")
        if size < _HEAD.size or at + size > len(data):
            raise ProtocolError(f"the reply's body has no whole record at byte {at}")
        found.append(read_record(data[at:at + size]))
        at += size
    return found


def read_record(record: bytes) -> Message:
    """The message that these bytes are. `ProtocolError` where they are none or were damaged on their way."""
    try:
        (_, magic, checksum, queue, flag, queue_offset, place, system_flag, born_time, _, store_time, store_host,
         reconsume_times, _, body_size) = _HEAD.unpack_from(record)
        topic_at = _HEAD.size + body_size
        text_at = topic_at + 1 + record[topic_at]
        body, topic = record[_HEAD.size:topic_at], record[topic_at + 1:text_at].decode()
        text_size, = struct.unpack_from(">H", record, text_at)
        text = record[text_at + 2:]
        if magic != MAGIC or len(text) != text_size or zlib.crc32(body) & 0x7FFFFFFF != checksum:
            raise ValueError("the magic number, a length or the checksum of the body is wrong")
        properties = read_properties(text.decode())
    except (ValueError, IndexError, struct.error) as fault:
        raise ProtocolError(f"the reply's body has no record: {fault}") from fault
    return Message(topic, queue, queue_offset, body, properties, message_id(store_host, place), place, born_time,
                   store_time, reconsume_times, flag, system_flag)


def message_id(store_host: bytes, place: int) -> str:
    """The id of the message at this place of the log: the broker's address, its port and the place, in hexadecimal."""
    return f"{store_host.hex().upper()}{place:016X}"


def place_of(identifier: str) -> int:
    """The place in the log that a message id says. `ValueError` where it is no message id."""
    if len(identifier) != 32 or not set(identifier) <= set("0123456789ABCDEF"):
        raise ValueError(f"no message id: {identifier!r} (an id has 32 upper-case hexadecimal digits)")
    return int(identifier[16:], 16)
