"""Transactions: a message that consumers see once its producer has done its own part, or never.

    the half message is stored -> listener.execute
        COMMIT    -> consumers see the message
        ROLLBACK  -> nobody does
        UNKNOWN, or the producer died before it decided -> the broker asks: listener.check

The broker asks (a check-back) a producer of the group that it knows by a heartbeat: six seconds after the half message
was stored, and then each minute; the sixteenth time it gives the message up. Without a listener a program makes the
steps itself: `send_half`, then `end_transaction`, and `checks` for what the broker asks.
"""
from __future__ import annotations

import enum
import logging
import queue as queues_of_threads
import time
from concurrent.futures import ThreadPoolExecutor
from dataclasses import dataclass
from typing import Any, Iterator, Mapping, Optional, Protocol, Sequence, Union

from .codes import PREPARED, ReplyCode, RequestCode
from .connection import Connection
from .errors import ClientError, ProtocolError, ReplyLost, SendUnknown, refusal
from .frame import Frame
from .heartbeat import Heartbeats
from .message import Body, Message, Outgoing, place_of, read_record
from .producer import Producer, SendResult

MOST_CHECKS_HELD = 1024  # further ones are dropped: the broker asks again

log = logging.getLogger("mq_client")


class Decision(enum.IntEnum):
    """What becomes of a half message."""

    UNKNOWN = 0
    COMMIT = 8
    ROLLBACK = 12


class TransactionListener(Protocol):
    """The producer's own part of a transaction."""

    def execute(self, message: SendResult, argument: Any) -> Decision:
        """Does it, after the half message was stored. `argument` is what `send_in_transaction` was given."""

    def check(self, message: Message) -> Decision:
        """What became of it: the broker asks, since it got no decision. Called by a thread of the producer's own."""


class Half(Protocol):
    """What a decision names a half message by: a `SendResult`, a `Check` and a `HalfName` have it."""

    @property
    def queue_offset(self) -> int: ...

    @property
    def message_id(self) -> str: ...

    @property
    def unique_key(self) -> str: ...


@dataclass(frozen=True)
class HalfName:
    """The name of a half message as a text, which a program may keep beside its own part of the transaction.

    `str` writes it and `read` reads it: queue offset, message id and, where it has one, unique key, with `-` between.
    """

    queue_offset: int
    message_id: str
    unique_key: str = ""

    @classmethod
    def of(cls, half: Half) -> HalfName:
        """The name of this half message."""
        return cls(half.queue_offset, half.message_id, half.unique_key)

    @classmethod
    def read(cls, text: str) -> HalfName:
        """The half message that this text names. `ValueError` where it names none."""
        offset, dash, rest = text.partition("-")
        identifier, _, key = rest.partition("-")
        if not dash or not (offset.isascii() and offset.isdigit()):
            raise ValueError(f"no half message: {text!r} (wanted OFFSET-ID or OFFSET-ID-KEY)")
        place_of(identifier)
        return cls(int(offset), identifier, key)

    def __str__(self) -> str:
        return f"{self.queue_offset}-{self.message_id}" + (f"-{self.unique_key}" if self.unique_key else "")


@dataclass(frozen=True)
class Check:
    """The broker asks what became of a half message: a check-back. The other fields are what a decision names it by."""

    message: Message
    queue_offset: int
    message_id: str
    unique_key: str

    @classmethod
    def of(cls, request: Frame) -> Check:
        """The check-back that this request is. `ProtocolError` where it is none."""
        message = read_record(request.body)
        try:
            offset, place = int(request.fields["tranStateTableOffset"]), int(request.fields["commitLogOffset"])
        except (KeyError, ValueError) as fault:
            raise ProtocolError(f"a check-back names no half message: {fault!r}") from fault
        return cls(message, offset, f"{message.message_id[:16]}{place:016X}", message.unique_key)


@dataclass(frozen=True)
class TransactionResult:
    """What a transaction led to. With a `fault` the broker didn't get the decision, and will ask for it."""

    half: SendResult
    decision: Decision
    fault: Optional[ClientError] = None


class TransactionProducer(Producer):
    """A producer of messages whose transactions this listener decides. One connection has one such producer.

    Without a listener `send_half`, `end_transaction` and `checks` are what a transaction is made of.
    """

    def __init__(self, connection: Union[Connection, str, None], group: str,
                 listener: Optional[TransactionListener] = None, *, queues: int = 4) -> None:
        super().__init__(connection, group, queues=queues)
        self._listener = listener
        self._is_closed = False
        self._held: queues_of_threads.Queue[Check] = queues_of_threads.Queue(MOST_CHECKS_HELD)
        self._workers = ThreadPoolExecutor(1, "mq_client checks")
        self.connection.on_request(RequestCode.CHECK_TRANSACTION_STATE, self._asked)
        self._heartbeats = Heartbeats(self.connection, producers=(group,))
        self._heartbeats.start()

    def send_half(self, topic: str, body: Body, *, tags: Optional[str] = None, keys: Union[str, Sequence[str]] = (),
                  properties: Optional[Mapping[str, str]] = None, queue: Optional[int] = None,
                  timeout: Optional[float] = None) -> SendResult:
        """Stores a half message, which nobody sees before it is committed. Errors are those of `send`.

        After a `SendUnknown` it may be stored: then the broker asks for a decision later.
        """
        message = Outgoing(body, tags, keys, properties or {})
        more = {"TRAN_MSG": "true", "PGROUP": self.group}
        future = self._send(topic, message, more, queue, PREPARED, timeout)
        return self._await(f"send a half message to {topic}", future, timeout)

    def end_transaction(self, half: Half, decision: Decision, *, timeout: Optional[float] = None) -> None:
        """Tells the broker what becomes of a half message; `UNKNOWN` leaves it open, and the broker asks later.

        Once it returns, a decision is on the broker's disk and stays. The same decision may be told any number of
        times, so it is sent again where its reply is lost, until the timeout.

        `BrokerError` where the broker refused it and changed nothing: with the remark `half` no half message has this
        name and this group; with `settled committed`, `settled rolledback` or `settled discarded` another decision came
        first, or none in sixteen checks. `SendUnknown` where it may or may not have it: tell it again.
        """
        is_asked = isinstance(half, Check)
        fields = {"producerGroup": self.group, "tranStateTableOffset": str(half.queue_offset),
                  "commitLogOffset": str(place_of(half.message_id)), "commitOrRollback": str(int(decision)),
                  "fromTransactionCheck": str(is_asked).lower(), "msgId": half.unique_key,
                  "transactionId": half.unique_key}
        what = f"{decision.name.lower()} a half message"
        try:
            reply = self.connection.request(RequestCode.END_TRANSACTION, fields, timeout=timeout, is_repeatable=True)
        except ReplyLost as fault:
            raise SendUnknown(f"{what}: whether the broker has the decision is not known: {fault}") from fault
        if reply.code in (ReplyCode.FLUSH_FAILED, ReplyCode.NO_MEMORY):
            raise SendUnknown(f"{what}: whether the decision was stored is not known (code {reply.code}, "
                              f"{reply.remark})", code=reply.code, remark=reply.remark)
        if reply.code != ReplyCode.OK:
            raise refusal(what, reply.code, reply.remark)

    def checks(self, *, count: Optional[int] = None, idle: Optional[float] = None) -> Iterator[Check]:
        """What the broker asks, as it comes: at most so many, and until none has come for `idle` seconds.

        Answer each by `end_transaction(check, ..)`; one that isn't answered is asked again in a minute. Only for a
        producer without a listener.
        """
        if self._listener is not None:
            raise ValueError("this producer's listener answers what the broker asks")
        given, end = 0, None if idle is None else time.monotonic() + idle
        while (count is None or given < count) and not self._is_closed:
            left = 0.2 if end is None else min(0.2, end - time.monotonic())
            try:
                check = self._held.get(timeout=max(0.0, left))
            except queues_of_threads.Empty:
                if end is not None and time.monotonic() >= end:
                    return
                continue
            yield check
            given, end = given + 1, None if idle is None else time.monotonic() + idle

    def send_in_transaction(self, topic: str, body: Body, argument: Any = None, *, tags: Optional[str] = None,
                            keys: Union[str, Sequence[str]] = (), properties: Optional[Mapping[str, str]] = None,
                            queue: Optional[int] = None, timeout: Optional[float] = None) -> TransactionResult:
        """Stores a half message, lets the listener do its part, and sends the broker its decision.

        The errors are those of `send`; then the listener wasn't asked (after a `SendUnknown` the broker may ask it
        later). What the listener itself raises is raised after the broker was sent that the decision is unknown.
        """
        if self._listener is None:
            raise ValueError("this producer has no listener that could decide; send_half and end_transaction need none")
        half = self.send_half(topic, body, tags=tags, keys=keys, properties=properties, queue=queue, timeout=timeout)
        try:
            decision = self._listener.execute(half, argument)
        except BaseException:
            self._settle(half, Decision.UNKNOWN)
            raise
        return TransactionResult(half, decision, self._settle(half, decision))

    def close(self) -> None:
        """Ends what this producer made. Transactions that aren't decided are left to the group's other producers."""
        self._is_closed = True
        self._heartbeats.close()
        self._workers.shutdown(wait=False)
        super().close()

    def _settle(self, half: Half, decision: Decision) -> Optional[ClientError]:
        """Sends the broker the decision. None, or why the broker didn't take it."""
        try:
            self.end_transaction(half, decision)
        except ClientError as fault:
            return fault
        return None

    def _asked(self, request: Frame) -> None:
        if self._listener is not None:
            self._workers.submit(self._check, request, self._listener)
            return
        try:
            self._held.put_nowait(Check.of(request))
        except ProtocolError as fault:
            log.warning("a check-back can't be read: %s", fault)
        except queues_of_threads.Full:
            log.warning("%s check-backs wait already; this one will come again", MOST_CHECKS_HELD)

    def _check(self, request: Frame, listener: TransactionListener) -> None:
        """Answers a check-back. One that fails is asked again by the broker."""
        try:
            check = Check.of(request)
            fault = self._settle(check, listener.check(check.message))
        except Exception:
            log.exception("a check-back couldn't be answered")
            return
        if fault is not None:
            log.warning("a check-back couldn't be answered: %s", fault)
