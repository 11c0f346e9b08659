"""Sends: one by one, many at a time, and in batches."""
from __future__ import annotations

import concurrent.futures
import itertools
import struct
import threading
import time
from concurrent.futures import Future
from dataclasses import dataclass
from types import TracebackType
from typing import Callable, Dict, List, Mapping, Optional, Sequence, Type, TypeVar, Union

from .codes import DEFAULT_TOPIC, DELAYS, MOST_QUEUES_OF_A_NEW_TOPIC, ReplyCode, RequestCode
from .connection import Connection, TICK, shared
from .errors import BrokerUnavailable, ClientError, ReplyLost, RequestTimeout, SendUnknown, refusal
from .frame import Frame
from .message import Body, Outgoing, property_text
from .queues import QueueCounts

_Result = TypeVar("_Result")
_Self = TypeVar("_Self", bound="Producer")


@dataclass(frozen=True)
class SendResult:
    """Where the broker stored a message. It is on the broker's disk, unless it was sent with `wait=False`.

    Of a delayed message `queue` is the one that it is for. `queue_offset` and `message_id` are those that it has while
    it is held back: it gets others in its queue, and keeps its `unique_key`. Of a half message they are those by which
    a decision names it.
    """

    topic: str
    queue: int
    queue_offset: int
    message_id: str
    unique_key: str


class Producer:
    """Sends messages. Many threads may use one producer, and many producers one connection.

    `queues` is with how many queues, 1 to 8, a topic is made that the broker doesn't know.
    """

    def __init__(self, connection: Union[Connection, str, None] = None, group: str = "producers", *,
                 queues: int = 4) -> None:
        if not 1 <= queues <= MOST_QUEUES_OF_A_NEW_TOPIC:
            raise ValueError(f"a topic is made with 1 to {MOST_QUEUES_OF_A_NEW_TOPIC} queues, not with {queues}")
        self.connection, self._is_own = shared(connection)
        self.group = group
        self._new_queues = queues
        self._counts = QueueCounts(self.connection)
        self._turns: Dict[str, itertools.count[int]] = {}
        self._guard = threading.Lock()

    def send(self, topic: str, body: Body, *, tags: Optional[str] = None, keys: Union[str, Sequence[str]] = (),
             properties: Optional[Mapping[str, str]] = None, queue: Optional[int] = None, delay_level: int = 0,
             wait: bool = True, timeout: Optional[float] = None) -> SendResult:
        """Sends a message, and says where it is stored once it is.

        A body that is a text is sent as UTF-8. Without a `queue` the topic's queues take turns. `delay_level` 1 to 18
        holds the message back for 1 s to 2 h, as `codes.DELAYS` says; 0 doesn't. With `wait=False` the broker answers
        before the message is on its disk.

        `SendUnknown` where it may or may not have been stored: it isn't sent again. `BrokerError` where the broker
        refused it, `BrokerUnavailable` where it couldn't be sent: it isn't stored then.
        """
        future = self.send_async(topic, body, tags=tags, keys=keys, properties=properties, queue=queue,
                                 delay_level=delay_level, wait=wait, timeout=timeout)
        return self._await(f"send to {topic}", future, timeout)

    def send_async(self, topic: str, body: Body, *, tags: Optional[str] = None, keys: Union[str, Sequence[str]] = (),
                   properties: Optional[Mapping[str, str]] = None, queue: Optional[int] = None, delay_level: int = 0,
                   wait: bool = True, timeout: Optional[float] = None) -> Future[SendResult]:
        """The same without waiting for the reply: the future gets the result, or the error that `send` would raise.

        It waits only while the connection has to be made, or the topic's queues aren't known yet. Callbacks of the
        future are called by the thread that reads the connection, and mustn't wait for it.
        """
        if not 0 <= delay_level <= len(DELAYS):
            raise ValueError(f"a delay level is 1 to {len(DELAYS)}, or 0 for none, and not {delay_level}")
        message = Outgoing(body, tags, keys, properties or {})
        more = {}
        if delay_level:
            more["DELAY"] = str(delay_level)
        if not wait:
            more["WAIT"] = "false"
        return self._send(topic, message, more, queue, 0, timeout)

    def send_batch(self, topic: str, messages: Sequence[Union[Outgoing, Body]], *, queue: Optional[int] = None,
                   timeout: Optional[float] = None) -> List[SendResult]:
        """Sends messages that are stored one after another in one queue, all or none of them.

        `NotSupported` where the broker doesn't take batches; other errors are those of `send`, for all of them
        together.
        """
        if not messages:
            return []
        batch = [message if isinstance(message, Outgoing) else Outgoing(message) for message in messages]
        properties = [message.all_properties({}) for message in batch]
        body = b"".join(_batched(message.body_bytes(), property_text(its)) for message, its in zip(batch, properties))
        names = {"a": "producerGroup", "b": "topic", "c": "defaultTopic", "d": "defaultTopicQueueNums", "e": "queueId",
                 "f": "sysFlag", "g": "bornTimestamp", "h": "flag", "i": "properties"}
        fields = self._fields(topic, self._queue_of(topic, queue), "", 0)
        reply = self._ask(f"send to {topic}", RequestCode.SEND_BATCH_MESSAGE,
                          {**{letter: fields[name] for letter, name in names.items()}, "m": "true"}, body, timeout)
        first, ids = int(reply.fields["queueOffset"]), reply.fields["msgId"].split(",")
        return [SendResult(topic, int(reply.fields["queueId"]), first + k, identifier, its.get("UNIQ_KEY", ""))
                for k, (identifier, its) in enumerate(zip(ids, properties))]

    def close(self) -> None:
        """Ends what this producer made. Sends that wait for their replies get `SendUnknown`."""
        if self._is_own:
            self.connection.close()

    def __enter__(self: _Self) -> _Self:
        return self

    def __exit__(self, kind: Optional[Type[BaseException]], fault: Optional[BaseException],
                 trace: Optional[TracebackType]) -> None:
        self.close()

    def _send(self, topic: str, message: Outgoing, more: Mapping[str, str], queue: Optional[int], system_flag: int,
              timeout: Optional[float]) -> Future[SendResult]:
        properties = message.all_properties(more)
        fields = self._fields(topic, self._queue_of(topic, queue), property_text(properties), system_flag)
        reply = self.connection.request_async(RequestCode.SEND_MESSAGE, fields, message.body_bytes(), timeout=timeout)
        what, key = f"send to {topic}", properties["UNIQ_KEY"]
        return _chained(reply, lambda frame: self._result(what, topic, key, frame), what)

    def _fields(self, topic: str, queue: int, properties: str, system_flag: int) -> Dict[str, str]:
        return {"producerGroup": self.group, "topic": topic, "queueId": str(queue), "sysFlag": str(system_flag),
                "bornTimestamp": str(time.time_ns() // 1_000_000), "flag": "0", "properties": properties,
                "defaultTopic": DEFAULT_TOPIC, "defaultTopicQueueNums": str(self._new_queues)}

    def _queue_of(self, topic: str, queue: Optional[int]) -> int:
        """The queue that was asked for, or the one whose turn it is."""
        if queue is not None:
            return queue
        try:
            count = self._counts.of(topic) or self._new_queues
        except ReplyLost as fault:
            raise BrokerUnavailable(f"send to {topic}: nothing was sent, its queues aren't known: {fault}") from fault
        with self._guard:
            turn = self._turns.setdefault(topic, itertools.count())
        return next(turn) % count

    def _result(self, what: str, topic: str, key: str, reply: Frame) -> SendResult:
        if reply.code == ReplyCode.REFUSED and reply.remark == "queue":
            self._counts.forget(topic)
        _want_stored(what, reply)
        fields = reply.fields
        return SendResult(topic, int(fields["queueId"]), int(fields["queueOffset"]), fields["msgId"], key)

    def _ask(self, what: str, code: RequestCode, fields: Mapping[str, str], body: bytes,
             timeout: Optional[float]) -> Frame:
        """The reply to a request that stores something, where it did."""
        try:
            reply = self.connection.request(code, fields, body, timeout=timeout)
        except ReplyLost as fault:
            raise _unknown(what, fault) from fault
        _want_stored(what, reply)
        return reply

    def _await(self, what: str, future: Future[SendResult], timeout: Optional[float]) -> SendResult:
        seconds = self.connection.timeout if timeout is None else timeout
        try:
            return future.result(seconds + 5 * TICK)  # by then the connection itself has failed it
        except concurrent.futures.TimeoutError:
            raise _unknown(what, RequestTimeout("no reply came in time")) from None


def _batched(body: bytes, properties: str) -> bytes:
    """A message of a batch: its size, two numbers that nobody reads, its flag, the body and the properties."""
    text = properties.encode()
    rest = struct.pack(">IIiI", 0, 0, 0, len(body)) + body + struct.pack(">H", len(text)) + text
    return struct.pack(">I", 4 + len(rest)) + rest


def _want_stored(what: str, reply: Frame) -> None:
    if reply.code in (ReplyCode.FLUSH_FAILED, ReplyCode.NO_MEMORY):
        raise SendUnknown(f"{what}: whether it was stored is not known (code {reply.code}, {reply.remark})",
                          code=reply.code, remark=reply.remark)
    if reply.code != ReplyCode.OK:
        raise refusal(what, reply.code, reply.remark)


def _unknown(what: str, fault: ClientError) -> SendUnknown:
    unknown = SendUnknown(f"{what}: whether it was stored is not known: {fault}")
    unknown.__cause__ = fault
    return unknown


def _chained(reply: Future[Frame], read: Callable[[Frame], _Result], what: str) -> Future[_Result]:
    """What is read of the reply, once it is there; a reply that is lost leaves the send unknown."""
    result: Future[_Result] = Future()
    result.set_running_or_notify_cancel()

    def finish(done: Future[Frame]) -> None:
        try:
            result.set_result(read(done.result()))
        except ReplyLost as fault:
            result.set_exception(_unknown(what, fault))
        except BaseException as fault:
            result.set_exception(fault)

    reply.add_done_callback(finish)
    return result
