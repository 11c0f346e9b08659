"""Locks on queues: of a group's consumers the one that has a queue's lock works on it, in order.

The broker drops a lock 60 seconds after it was last asked for, and all of them when it starts.
"""
from __future__ import annotations

import json
from typing import Iterable, List, Set, Tuple

from .codes import ReplyCode, RequestCode
from .connection import Connection
from .errors import ProtocolError, refusal

RENEW_SECONDS = 20.0
TRUST_SECONDS = 45.0  # how long after it was asked for a lock is relied on

_BROKER_NAME = "broker"  # it is copied into the reply, and means nothing else
_MOST_AT_ONCE = 1000


class QueueLocks:
    """The locks that one client of a group has."""

    def __init__(self, connection: Connection, group: str, client_id: str) -> None:
        self._connection, self._group, self._client_id = connection, group, client_id

    def lock(self, queues: Iterable[Tuple[str, int]]) -> Set[Tuple[str, int]]:
        """Asks for these locks, or renews them. Those that the client has now."""
        got: Set[Tuple[str, int]] = set()
        for some in _in_parts(list(queues)):
            got |= self._ask(RequestCode.LOCK_BATCH_MQ, some)
        return got

    def unlock(self, queues: Iterable[Tuple[str, int]]) -> None:
        """Gives these locks back."""
        for some in _in_parts(list(queues)):
            self._ask(RequestCode.UNLOCK_BATCH_MQ, some)

    def _ask(self, code: RequestCode, queues: List[Tuple[str, int]]) -> Set[Tuple[str, int]]:
        said = {"consumerGroup": self._group, "clientId": self._client_id,
                "mqSet": [{"topic": topic, "brokerName": _BROKER_NAME, "queueId": queue} for topic, queue in queues]}
        reply = self._connection.request(code, {}, json.dumps(said).encode())
        if reply.code != ReplyCode.OK:
            raise refusal("lock queues", reply.code, reply.remark)
        if code == RequestCode.UNLOCK_BATCH_MQ:
            return set()
        try:
            return {(one["topic"], one["queueId"]) for one in json.loads(reply.body)["lockOKMQSet"]}
        except (ValueError, KeyError, TypeError) as fault:
            raise ProtocolError(f"the reply to a lock can't be read: {reply.body[:80]!r}") from fault


def _in_parts(queues: List[Tuple[str, int]]) -> Iterable[List[Tuple[str, int]]]:
    return (queues[at:at + _MOST_AT_ONCE] for at in range(0, len(queues), _MOST_AT_ONCE))
