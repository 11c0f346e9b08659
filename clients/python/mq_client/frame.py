"""Frames: how a request or a reply is spelled on a connection.

| at    | bytes     | field                                       |
|------:|----------:|---------------------------------------------|
| 0     | 4         | L: how many bytes follow, 4 to 16,777,216   |
| 4     | 1         | the header's form: 0 JSON, 1 binary         |
| 5     | 3         | H: how many bytes the header has            |
| 8     | H         | the header                                  |
| 8 + H | L - 4 - H | the body                                    |

All numbers have the high byte first.
"""
from __future__ import annotations

import enum
import json
import struct
from dataclasses import dataclass, field
from typing import Dict, List, Mapping, Tuple

from .codes import ONE_WAY_FLAG, REPLY_FLAG
from .errors import ProtocolError

LONGEST = 16_777_216  # bytes after the length
VERSION = 395  # that of release 4.9, which these frames are of
LANGUAGE_NAME, LANGUAGE_NUMBER = "PYTHON", 3

_BINARY_HEAD = struct.Struct(">hBhiiI")  # code, language, version, opaque, flag, length of the remark


class Form(enum.IntEnum):
    """How a header is spelled. The broker answers in the form in which it was asked."""

    JSON = 0
    BINARY = 1


@dataclass(frozen=True)
class Frame:
    """A request or a reply. `opaque` is the number that a reply has of its request, 0 to 2^31 - 1."""

    code: int
    opaque: int
    fields: Mapping[str, str] = field(default_factory=dict)
    body: bytes = b""
    flag: int = 0
    remark: str = ""
    form: Form = Form.JSON

    @property
    def is_reply(self) -> bool:
        """Whether this answers a request."""
        return bool(self.flag & REPLY_FLAG)

    @property
    def is_one_way(self) -> bool:
        """Whether this is a request that wants no reply."""
        return bool(self.flag & ONE_WAY_FLAG)

    def encode(self) -> bytes:
        """The bytes of this frame. `ValueError` where they are too many, or a text can't be UTF-8."""
        header = _binary_header(self) if self.form is Form.BINARY else _json_header(self)
        size = 4 + len(header) + len(self.body)
        if size > LONGEST:
            raise ValueError(f"a frame has at most {LONGEST} bytes, this one would have {size}")
        return b"".join((struct.pack(">IB", size, self.form), len(header).to_bytes(3, "big"), header, self.body))


def _json_header(frame: Frame) -> bytes:
    header: Dict[str, object] = {
        "code": frame.code, "extFields": dict(frame.fields), "flag": frame.flag, "language": LANGUAGE_NAME,
        "opaque": frame.opaque, "serializeTypeCurrentRPC": "JSON", "version": VERSION}
    if frame.remark:
        header["remark"] = frame.remark
    return json.dumps(header, ensure_ascii=False, separators=(",", ":")).encode()


def _binary_header(frame: Frame) -> bytes:
    pairs = []
    for name, value in frame.fields.items():
        name_bytes, value_bytes = name.encode(), value.encode()
        pairs += [struct.pack(">H", len(name_bytes)), name_bytes, struct.pack(">I", len(value_bytes)), value_bytes]
    text, remark = b"".join(pairs), frame.remark.encode()
    head = _BINARY_HEAD.pack(frame.code, LANGUAGE_NUMBER, VERSION, frame.opaque, frame.flag, len(remark))
    return b"".join((head, remark, struct.pack(">I", len(text)), text))


def decode(data: bytes) -> Frame:
    """The frame that these bytes are, its length among them. `ProtocolError` where they are none."""
    form, header_size = data[4], int.from_bytes(data[5:8], "big")
    if form not in (Form.JSON, Form.BINARY) or 8 + header_size > len(data):
        raise ProtocolError(f"a frame begins with {data[:8].hex()}, which says no header that it could have")
    header, body = data[8:8 + header_size], data[8 + header_size:]
    try:
        return _read_binary(header, body) if form == Form.BINARY else _read_json(header, body)
    except (ValueError, KeyError, TypeError, AttributeError, struct.error, RecursionError) as fault:
        raise ProtocolError(f"a frame has a header that can't be read: {header[:40]!r}") from fault


def _read_json(header: bytes, body: bytes) -> Frame:
    said = json.loads(header)
    fields = {name: value for name, value in (said.get("extFields") or {}).items() if value is not None}
    if not all(isinstance(value, str) for value in fields.values()):
        raise ValueError("a field is no text")
    numbers = said["code"], said["opaque"], said.get("flag", 0)
    if not all(type(number) is int for number in numbers):
        raise ValueError("the code, the number or the flag is no number")
    code, opaque, flag = numbers
    return Frame(code, opaque, fields, body, flag, said.get("remark") or "", Form.JSON)


def _read_binary(header: bytes, body: bytes) -> Frame:
    code, _, _, opaque, flag, size = _BINARY_HEAD.unpack_from(header)
    remark, at = _cut(header, _BINARY_HEAD.size, size)
    size, = struct.unpack_from(">I", header, at)
    pairs, end = _cut(header, at + 4, size)
    if end != len(header):
        raise ValueError("the header has more after its fields")
    return Frame(code, opaque, _read_pairs(pairs), body, flag, remark.decode(), Form.BINARY)


def _read_pairs(pairs: bytes) -> Dict[str, str]:
    fields: Dict[str, str] = {}
    at = 0
    while at < len(pairs):
        size, = struct.unpack_from(">H", pairs, at)
        name, at = _cut(pairs, at + 2, size)
        size, = struct.unpack_from(">I", pairs, at)
        value, at = _cut(pairs, at + 4, size)
        fields[name.decode()] = value.decode()
    return fields


def _cut(data: bytes, at: int, size: int) -> Tuple[bytes, int]:
    """The `size` bytes at `at`, and where they end. `ValueError` where there are fewer."""
    if at + size > len(data):
        raise ValueError(f"{size} bytes should be at {at} of {len(data)}")
    return data[at:at + size], at + size


class FrameReader:
    """Cuts what comes on a connection into frames. After an error it mustn't be used any more."""

    def __init__(self) -> None:
        self._held = bytearray()

    @property
    def missing(self) -> str:
        """What is held of a frame that isn't whole, in words; empty between two frames."""
        if not self._held:
            return ""
        if len(self._held) < 4:
            return f"{len(self._held)} of the 4 bytes of its length"
        return f"{len(self._held)} of its {4 + int.from_bytes(self._held[:4], 'big')} bytes"

    def feed(self, piece: bytes) -> List[Frame]:
        """The frames that are whole now. `ProtocolError` where the bytes can't be frames."""
        self._held += piece
        found: List[Frame] = []
        at = 0
        while len(self._held) - at >= 4:
            size = int.from_bytes(self._held[at:at + 4], "big")
            if not 4 <= size <= LONGEST:
                start = bytes(self._held[at:at + 24])
                raise ProtocolError(f"the peer doesn't speak the broker's protocol: it sent {start!r}")
            if len(self._held) - at < 4 + size:
                break
            found.append(decode(bytes(self._held[at:at + 4 + size])))
            at += 4 + size
        del self._held[:at]
        return found
