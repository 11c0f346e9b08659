"""Heartbeats: that a client is there, of which groups it is, and to what these subscribe."""
from __future__ import annotations

import itertools
import json
import logging
import os
import socket
import threading
import time
from typing import Mapping, Optional, Sequence

from .codes import ReplyCode, RequestCode
from .connection import Connection
from .errors import ClientError

EVERY_SECONDS = 30.0
EVERY_SECONDS_OF_A_PIPE = 1.0  # a broker that this program runs asks back and delivers when it is asked something
LOOK_SECONDS = 1.0  # how long after a connection was made again its first heartbeat may come

log = logging.getLogger("mq_client")
_numbers = itertools.count(1)


def new_client_id() -> str:
    """A name that no other client has: host, process, and a number in it."""
    return f"{socket.gethostname()[:64]}@{os.getpid()}#{next(_numbers)}"


class Heartbeats:
    """Sends a client's heartbeats, by a thread: every half a minute (every second to a broker that this program runs),
    and whenever the connection was made again.

    `subscriptions` has for each topic the tags that the consumer group wants, as `TagA || TagB`, or `*`.
    """

    def __init__(self, connection: Connection, client_id: Optional[str] = None, *, producers: Sequence[str] = (),
                 consumer: Optional[str] = None, subscriptions: Optional[Mapping[str, str]] = None) -> None:
        self.client_id = client_id or new_client_id()
        self._connection = connection
        self._producers, self._consumer = tuple(producers), consumer
        self._subscriptions = dict(subscriptions or {})
        self._closing = threading.Event()
        self._thread = threading.Thread(target=self._run, name="mq_client heartbeats", daemon=True)

    def start(self) -> None:
        """Begins with them."""
        self._thread.start()

    def close(self) -> None:
        """Ends them, and unregisters the client if the broker can be reached at once."""
        self._closing.set()
        if self._thread.is_alive():
            self._thread.join(self._connection.timeout + 1)
        for group in self._producers:
            self._leave({"clientID": self.client_id, "producerGroup": group})
        if self._consumer is not None:
            self._leave({"clientID": self.client_id, "consumerGroup": self._consumer})

    def _leave(self, fields: Mapping[str, str]) -> None:
        try:
            self._connection.request(RequestCode.UNREGISTER_CLIENT, fields, timeout=min(1.0, self._connection.timeout))
        except ClientError as fault:
            log.debug("a client could not be unregistered: %s", fault)

    def _run(self) -> None:
        made, due = 0, 0.0
        while not self._closing.is_set():
            if time.monotonic() >= due or self._connection.times_made != made:
                every = EVERY_SECONDS_OF_A_PIPE if self._connection.is_pipe else EVERY_SECONDS
                made, due = self._connection.times_made, time.monotonic() + every
                try:
                    self._beat()
                except ClientError as fault:
                    log.debug("a heartbeat failed: %s", fault)
                    due = time.monotonic() + LOOK_SECONDS
            self._closing.wait(LOOK_SECONDS)

    def _beat(self) -> None:
        subscriptions = [{"topic": topic, "subString": tags} for topic, tags in self._subscriptions.items()]
        consumers = [] if self._consumer is None else [self._consumer]
        said = {"clientID": self.client_id, "producerDataSet": [{"groupName": group} for group in self._producers],
                "consumerDataSet": [{"groupName": group, "subscriptionDataSet": subscriptions} for group in consumers]}
        reply = self._connection.request(RequestCode.HEART_BEAT, {}, json.dumps(said).encode())
        if reply.code != ReplyCode.OK:
            log.warning("a heartbeat is refused with code %s, %s", reply.code, reply.remark)
