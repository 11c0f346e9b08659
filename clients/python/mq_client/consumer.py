"""Consumers: the messages of topics for a group, which continues where it stopped.

A program takes messages by `poll` or a loop, or has a function called with each. Each message is given at least once.
It is done when the program says so (`done`), when the loop asks for the next one, or when the function returns; where
the program ends before that, the message is given again.

The broker has no list of a group's consumers. So several consumers of a group either have queues of their own
(`queues`), or share the queues by locks (`ordered`).
"""
from __future__ import annotations

import logging
import time
from types import TracebackType
from typing import Callable, Dict, Iterator, List, Mapping, Optional, Sequence, Type, Union

from .codes import RETRY_PREFIX, ReplyCode, RequestCode
from .connection import Connection, shared
from .errors import ClientError, refusal
from .fetcher import Fetcher, Plan
from .heartbeat import Heartbeats
from .locks import QueueLocks
from .message import Message
from .queue_state import QueueName
from .workers import Workers

RETRY_LOOK_SECONDS = 5.0  # between looks for the topic of messages that were sent back
MOST_RECONSUMES = 16  # how often a message is sent back before the broker puts it aside

log = logging.getLogger("mq_client")

Topics = Union[str, Sequence[str], Mapping[str, str]]
_STARTS = {"first": RequestCode.GET_MIN_OFFSET, "last": RequestCode.GET_MAX_OFFSET}


class Consumer:
    """Takes the messages of topics for a group. Many threads may use one consumer.

    `topics` is a topic, a list of them, or a map of topics to the tags that are wanted (`TagA || TagB`, or `*`).
    Messages come from all their queues; unless `ordered`, those that the group sent back (`send_back`) come too.
    `queues` in its place are single queues, as `[("Orders", 0)]`, with `tags`.

    `ordered`: the messages of a queue are given one after another, to one consumer of the group at a time, which has
    the queue's lock. This one takes the locks of at most `max_queues` queues. Other consumers get them once it ends,
    or a minute after it died.

    A group that has stored no offset begins at the `start` of its queues, `first` or `last`.

    While the broker is gone a consumer keeps trying; after `patience` seconds of that `poll` raises the last error.
    """

    def __init__(self, connection: Union[Connection, str, None], group: str, topics: Topics = (), *,
                 queues: Sequence[QueueName] = (), tags: str = "*", ordered: bool = False,
                 max_queues: Optional[int] = None, start: str = "first", patience: float = 60.0) -> None:
        if bool(topics) == bool(queues):
            raise ValueError("a consumer has either topics or queues")
        if start not in _STARTS:
            raise ValueError(f"a group begins at the first or the last message, not at {start!r}")
        self.connection, self._is_own = shared(connection)
        self.group = group
        self._sends_back = bool(topics) and not ordered
        wanted, retry_topic = _topics(topics), RETRY_PREFIX + group
        if self._sends_back:
            wanted[retry_topic] = "*"
        plan = Plan(group, wanted, {retry_topic: RETRY_LOOK_SECONDS}, ordered, max_queues, _STARTS[start], patience)
        subscriptions = {**wanted, **{topic: tags for topic, _ in queues}}
        self._heartbeats = Heartbeats(self.connection, consumer=group, subscriptions=subscriptions)
        self._fetcher = Fetcher(self.connection, plan, QueueLocks(self.connection, group, self._heartbeats.client_id))
        self._table = self._fetcher.table
        for name in queues:
            self._table.add(name, tags)
        self._is_closed = False
        self._start()

    @property
    def is_closed(self) -> bool:
        """Whether `close` was called."""
        return self._is_closed

    def poll(self, timeout: float = 1.0) -> Optional[Message]:
        """The next message, which is in work until `done` or `again` is called with it; None where none comes in time.

        `ClientError` where the broker refuses what this consumer needs, or was gone for longer than its patience.
        """
        return self._table.wait(timeout)

    def done(self, message: Message) -> None:
        """The message needn't be given again."""
        self._table.finish(message)

    def again(self, message: Message, pause: float = 1.0) -> None:
        """The message is given again after so many seconds; `ordered`, nothing else of its queue is given before."""
        self._table.put_back(message, pause)

    def messages(self, *, count: Optional[int] = None, idle: Optional[float] = None) -> Iterator[Message]:
        """The messages, each done when the next one is asked for.

        It ends after `count` messages, after `idle` seconds without one, or when the consumer is closed.
        """
        given, last = 0, time.monotonic()
        while (count is None or given < count) and not self._is_closed:
            message = self.poll(0.5 if idle is None else min(0.5, max(0.0, last + idle - time.monotonic())))
            if message is None:
                if idle is not None and time.monotonic() >= last + idle:
                    return
                continue
            given += 1
            yield message
            self.done(message)
            last = time.monotonic()

    def __iter__(self) -> Iterator[Message]:
        return self.messages()

    def run(self, handler: Callable[[Message], None], *, workers: int = 1, idle: Optional[float] = None) -> None:
        """Calls this with each message, by so many threads, until `close`, or for `idle` seconds without a message.

        A message whose call raises is sent back to the broker if that serves it, and else given again a little later.
        """
        Workers(self, handler, idle, self._sends_back).run(workers)

    def send_back(self, message: Message, delay_level: int = 0) -> None:
        """Gives the message back to the broker; the group gets it later, from the topic `%RETRY%` and the group's name.

        `NotSupported` where the broker doesn't serve that. The message is still in work: call `done` after this.
        """
        fields = {"offset": str(message.place), "group": self.group, "delayLevel": str(delay_level),
                  "originMsgId": message.unique_key or message.message_id, "originTopic": message.topic,
                  "unitMode": "false", "maxReconsumeTimes": str(MOST_RECONSUMES)}
        reply = self.connection.request(RequestCode.CONSUMER_SEND_MSG_BACK, fields)
        if reply.code != ReplyCode.OK:
            raise refusal(f"send a message of {message.topic} back", reply.code, reply.remark)

    def commit(self) -> None:
        """Stores the offsets of what is done, which happens every second too. `ClientError` where that fails."""
        self._fetcher.commit()

    def owned(self) -> List[QueueName]:
        """The queues of which this consumer is given messages now."""
        return self._table.owned()

    def close(self) -> None:
        """Stores the offsets of what is done, gives locks back and ends. What is in work is given again later."""
        if self._is_closed:
            return
        self._is_closed = True
        self._table.close()
        try:
            self._fetcher.close()
        except ClientError as fault:
            log.warning("a consumer of %s ended without storing its offsets: %s", self.group, fault)
        self._heartbeats.close()
        if self._is_own:
            self.connection.close()

    def __enter__(self) -> Consumer:
        return self

    def __exit__(self, kind: Optional[Type[BaseException]], fault: Optional[BaseException],
                 trace: Optional[TracebackType]) -> None:
        self.close()

    def _start(self) -> None:
        try:
            self._fetcher.start()
        except ClientError:
            if self._is_own:
                self.connection.close()
            raise
        self._heartbeats.start()


def _topics(topics: Topics) -> Dict[str, str]:
    if isinstance(topics, str):
        return {topics: "*"}
    if isinstance(topics, Mapping):
        return dict(topics)
    return {topic: "*" for topic in topics}
