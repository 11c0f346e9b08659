"""How many queues a topic has.

No request asks for it. But a queue that the topic doesn't have is refused, so asking for the least offset of some
queues finds the first that isn't there: of 0, 1, 3, 7, .. in one round trip, and then between the last two by halves.
"""
from __future__ import annotations

import threading
import time
from concurrent.futures import Future
from typing import Dict, Optional, Tuple

from .codes import MOST_QUEUES, ReplyCode, RequestCode
from .connection import Connection
from .errors import ConnectionLost, refusal
from .frame import Frame

KEEP_SECONDS = 30.0


def count_queues(connection: Connection, topic: str) -> Optional[int]:
    """How many queues the topic has, or None where the broker doesn't know it."""
    deadline = time.monotonic() + connection.timeout
    while True:
        try:
            return _count_queues(connection, topic)
        except ConnectionLost:
            if time.monotonic() >= deadline:
                raise


def _count_queues(connection: Connection, topic: str) -> Optional[int]:
    steps = [2 ** power - 1 for power in range(MOST_QUEUES.bit_length())]
    asked = [connection.request_async(RequestCode.GET_MIN_OFFSET, _fields(topic, queue)) for queue in steps]
    there = [_is_queue(topic, reply) for reply in asked]
    if there[0] is None:
        return None
    if all(there):
        return MOST_QUEUES
    low = steps[there.index(False) - 1]  # a queue, and the next one isn't
    high = steps[there.index(False)]
    while high - low > 1:
        middle = (low + high) // 2
        reply = connection.request_async(RequestCode.GET_MIN_OFFSET, _fields(topic, middle))
        low, high = (middle, high) if _is_queue(topic, reply) else (low, middle)
    return high


def _fields(topic: str, queue: int) -> Dict[str, str]:
    return {"topic": topic, "queueId": str(queue)}


def _is_queue(topic: str, reply: Future[Frame]) -> Optional[bool]:
    """Whether that queue is there; None where the topic isn't."""
    answer = reply.result()
    if answer.code == ReplyCode.OK:
        return True
    if answer.code == ReplyCode.NO_TOPIC:
        return None
    if answer.code == ReplyCode.REFUSED and answer.remark == "queue":
        return False
    raise refusal(f"ask for the queues of {topic}", answer.code, answer.remark)


class QueueCounts:
    """How many queues topics have, each asked for again after half a minute. For many threads."""

    def __init__(self, connection: Connection) -> None:
        self._connection = connection
        self._guard = threading.Lock()
        self._known: Dict[str, Tuple[int, float]] = {}

    def of(self, topic: str) -> Optional[int]:
        """How many queues the topic has, or None where the broker doesn't know it, which is asked again each time."""
        with self._guard:
            count, until = self._known.get(topic, (0, 0.0))
        if time.monotonic() < until:
            return count
        found = count_queues(self._connection, topic)
        if found is not None:
            with self._guard:
                self._known[topic] = (found, time.monotonic() + KEEP_SECONDS)
        return found

    def forget(self, topic: str) -> None:
        """It may have another number by now."""
        with self._guard:
            self._known.pop(topic, None)
