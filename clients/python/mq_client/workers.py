"""The threads of `Consumer.run`, and what becomes of a message whose function fails."""
from __future__ import annotations

import logging
import threading
import time
from concurrent.futures import ThreadPoolExecutor
from typing import Callable, Dict, Optional, Protocol, Tuple

from .errors import ClientError, NotSupported
from .message import Message

FIRST_PAUSE, LONGEST_PAUSE = 0.1, 5.0  # seconds before a message is given again, twice as long each time

log = logging.getLogger("mq_client")

Handler = Callable[[Message], None]


class Source(Protocol):
    """What workers take messages from: a consumer."""

    @property
    def is_closed(self) -> bool: ...

    def poll(self, timeout: float) -> Optional[Message]: ...

    def done(self, message: Message) -> None: ...

    def again(self, message: Message, pause: float) -> None: ...

    def send_back(self, message: Message) -> None: ...


class Workers:
    """Calls a function with each message of a source, by several threads.

    `sends_back`: a message that fails is given back to the broker, where that serves it.
    """

    def __init__(self, source: Source, handler: Handler, idle: Optional[float], sends_back: bool) -> None:
        self._source, self._handler, self._idle, self._sends_back = source, handler, idle, sends_back
        self._pauses: Dict[Tuple[str, int, int], float] = {}
        self._ending = threading.Event()

    def run(self, count: int) -> None:
        """Until the source is closed, or gives nothing for the idle time. The first error of the source."""
        with ThreadPoolExecutor(count, "mq_client worker") as pool:
            try:
                for worker in [pool.submit(self._work) for _ in range(count)]:
                    worker.result()
            finally:
                self._ending.set()

    def _work(self) -> None:
        last = time.monotonic()
        while not self._ending.is_set() and not self._source.is_closed:
            message = self._source.poll(0.5 if self._idle is None else min(0.5, self._idle))
            if message is not None:
                self._handle(message)
                last = time.monotonic()
            elif self._idle is not None and time.monotonic() >= last + self._idle:
                return

    def _handle(self, message: Message) -> None:
        name = (message.topic, message.queue, message.queue_offset)
        try:
            self._handler(message)
        except Exception:
            log.exception("the message at offset %s of queue %s of %s failed", message.queue_offset, message.queue,
                          message.topic)
            if not self._is_sent_back(message):
                pause = self._pauses[name] = min(LONGEST_PAUSE, 2 * self._pauses.get(name, FIRST_PAUSE / 2))
                return self._source.again(message, pause)
        self._pauses.pop(name, None)
        self._source.done(message)

    def _is_sent_back(self, message: Message) -> bool:
        if not self._sends_back:
            return False
        try:
            self._source.send_back(message)
            return True
        except NotSupported:
            self._sends_back = False
        except ClientError as fault:
            log.warning("%s", fault)
        return False
