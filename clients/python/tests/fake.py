"""Peers for the tests: a broker that answers as a test says, and ports that behave badly."""
from __future__ import annotations

import os
import socket
import struct
import sys
import threading
import time
import zlib
from typing import Callable, Dict, List, Optional, Tuple

from mq_client.frame import Frame, FrameReader

Answer = Callable[[Frame], Optional[Frame]]


class Port:
    """Listens at a free port, and has `serve` called with each connection, by a thread of its own."""

    def __init__(self) -> None:
        self._door = socket.create_server(("127.0.0.1", 0))
        self.address = "127.0.0.1:%d" % self._door.getsockname()[1]
        self.streams: List[socket.socket] = []
        threading.Thread(target=self._accept, daemon=True).start()

    def _accept(self) -> None:
        while True:
            try:
                stream, _ = self._door.accept()
            except OSError:
                return
            self.streams.append(stream)
            threading.Thread(target=self._run, args=(stream,), daemon=True).start()

    def _run(self, stream: socket.socket) -> None:
        try:
            self.serve(stream)
        except OSError:
            pass

    def serve(self, stream: socket.socket) -> None:
        """Nothing is said, and nothing is read."""

    def drop(self) -> None:
        """Ends all connections."""
        for stream in self.streams:
            try:
                stream.shutdown(socket.SHUT_RDWR)
            except OSError:
                pass

    def __enter__(self):
        return self

    def __exit__(self, *_: object) -> None:
        self._door.shutdown(socket.SHUT_RDWR)  # else the thread would accept one more
        self._door.close()
        self.drop()
        for stream in self.streams:
            stream.close()


class Speaker(Port):
    """Answers whatever comes first with these bytes, and ends the connection where `ends`."""

    def __init__(self, said: bytes, ends: bool = True) -> None:
        self._said, self._ends = said, ends
        super().__init__()

    def serve(self, stream: socket.socket) -> None:
        stream.recv(65536)
        stream.sendall(self._said)
        if self._ends:
            stream.shutdown(socket.SHUT_RDWR)


class Broker(Port):
    """Answers each request by the function for its code; None is no answer. `heard` has all requests."""

    def __init__(self, answers: Dict[int, Answer]) -> None:
        self.answers, self.heard = answers, []
        self.guard = threading.Lock()
        super().__init__()

    def serve(self, stream: socket.socket) -> None:
        reader = FrameReader()
        while True:
            piece = stream.recv(65536)
            if not piece:
                return
            for request in reader.feed(piece):
                with self.guard:
                    self.heard.append(request)
                    answer = self.answers.get(request.code, unknown)(request)
                if answer is not None and not request.is_one_way:
                    stream.sendall(answer.encode())

    def of(self, code: int) -> List[Frame]:
        """The requests of this code."""
        with self.guard:
            return [request for request in self.heard if request.code == code]

    def say(self, frame: Frame) -> None:
        """A request of the broker's own, on the newest connection."""
        self.streams[-1].sendall(frame.encode())


def reply(request: Frame, fields: Optional[Dict[str, str]] = None, body: bytes = b"", code: int = 0,
          remark: str = "") -> Frame:
    return Frame(code, request.opaque, fields or {}, body, 1, remark, request.form)


def unknown(request: Frame) -> Frame:
    return reply(request, code=3, remark=f"code {request.code}")


def stored(request):
    return reply(request, {"msgId": "7F00000100002A9F0000000000000064", "queueId": request.fields["queueId"],
                           "queueOffset": "7"})


def no_topic(request):
    return reply(request, code=17, remark="no topic")


class MemoryBroker(Broker):
    """Has one topic `T`, in memory: takes and gives its messages, and stores offsets of groups."""

    def __init__(self, queues: int = 2) -> None:
        self.queues: List[List[bytes]] = [[] for _ in range(queues)]
        self.tags: Dict[Tuple[int, int], str] = {}
        self.offsets: Dict[Tuple[str, int], int] = {}
        self.holds = False  # a pull that finds nothing is never answered
        super().__init__({10: self._send, 11: self._pull, 14: self._offset, 15: self._commit, 30: self._ends,
                          31: self._ends, 34: reply, 35: reply})

    def put(self, queue: int, *bodies: bytes, tags: str = "") -> None:
        with self.guard:
            for body in bodies:
                self.tags[queue, len(self.queues[queue])] = tags
                self.queues[queue].append(body)

    def _refused(self, request: Frame) -> Optional[Frame]:
        if request.fields["topic"] != "T":
            return reply(request, code=17, remark="no topic")
        if int(request.fields["queueId"]) >= len(self.queues):
            return reply(request, code=1, remark="queue")
        return None

    def _send(self, request: Frame) -> Frame:
        queue = int(request.fields["queueId"])
        self.queues[queue].append(request.body)
        offset = len(self.queues[queue]) - 1
        return reply(request, {"msgId": "7F00000100002A9F%016X" % offset, "queueId": str(queue),
                               "queueOffset": str(offset)})

    def _pull(self, request: Frame) -> Optional[Frame]:
        refused = self._refused(request)
        if refused:
            return refused
        queue, at = int(request.fields["queueId"]), int(request.fields["queueOffset"])
        if int(request.fields["sysFlag"]) & 1:
            self.offsets[request.fields["consumerGroup"], queue] = int(request.fields["commitOffset"])
        found = self.queues[queue][at:at + int(request.fields["maxMsgNums"])]
        if not found and self.holds:
            return None
        body = b"".join(record("T", one, queue, at + k, self.tags.get((queue, at + k), ""))
                        for k, one in enumerate(found))
        said = {"nextBeginOffset": at + len(found), "minOffset": 0, "maxOffset": len(self.queues[queue])}
        return reply(request, {name: str(value) for name, value in said.items()}, body, 0 if found else 19)

    def _offset(self, request: Frame) -> Frame:
        found = self.offsets.get((request.fields["consumerGroup"], int(request.fields["queueId"])))
        return reply(request, code=22) if found is None else reply(request, {"offset": str(found)})

    def _commit(self, request: Frame) -> Frame:
        name = request.fields["consumerGroup"], int(request.fields["queueId"])
        self.offsets[name] = int(request.fields["commitOffset"])
        return reply(request)

    def _ends(self, request: Frame) -> Frame:
        refused = self._refused(request)
        queue = int(request.fields["queueId"])
        return refused or reply(request, {"offset": str(len(self.queues[queue]) if request.code == 30 else 0)})


def record(topic: str, body: bytes, queue: int = 0, offset: int = 0, tags: str = "", properties: str = "") -> bytes:
    """A record as the broker would have it, but for its seal."""
    text = (properties + (f"TAGS\x01{tags}\x02" if tags else "")).encode()
    rest = struct.pack(">IIIiQQIQ8sQ8siQ", 0xDAA320A7, zlib.crc32(body) & 0x7FFFFFFF, queue, 0, offset,
                       1000 * queue + offset, 0, 1000, b"\x7f\0\0\1\0\0\0\0", 2000, b"\x7f\0\0\1\0\0\x2a\x9f", 0, 0)
    rest += struct.pack(">I", len(body)) + body + bytes([len(topic)]) + topic.encode()
    rest += struct.pack(">H", len(text)) + text
    return struct.pack(">I", 4 + len(rest)) + rest


def until(holds: Callable[[], bool], seconds: float = 5.0) -> bool:
    """Whether this holds within some time."""
    end = time.monotonic() + seconds
    while not holds():
        if time.monotonic() > end:
            return False
        time.sleep(0.01)
    return True


def piped() -> None:
    """A broker on standard input and output: `python3 fake.py`. It asks a check-back before the reply to code 1, ends
    with status 7 at code 2, and answers the rest with what it got."""
    reader = FrameReader()
    piece = os.read(0, 65536)
    while piece:
        for request in reader.feed(piece):
            if request.code == 1:
                fields = {"commitLogOffset": "178", "tranStateTableOffset": "1"}
                os.write(1, Frame(39, 0, fields, record("T", b"half", properties="UNIQ_KEY\x01u\x02"), 2).encode())
            if request.code == 2:
                sys.exit(7)
            os.write(1, reply(request, request.fields, request.body).encode())
        piece = os.read(0, 65536)


if __name__ == "__main__":
    piped()
