"""The queues of one consumer, shared by the thread that pulls and by those that take messages."""
from __future__ import annotations

import threading
import time
from typing import Callable, Dict, List, Optional, Tuple

from .errors import ClientError
from .message import Message
from .queue_state import QueueName, QueueState

ENOUGH_HELD = 64  # messages of a queue that wait; with so many it isn't pulled from


class QueueTable:
    """All queues, under one lock. `on_room` is called when a queue may be pulled from again."""

    def __init__(self, is_ordered: bool, on_room: Callable[[], None]) -> None:
        self.changed = threading.Condition()  # its lock guards all states, and is held to use one
        self.states: Dict[QueueName, QueueState] = {}
        self._is_ordered, self._on_room = is_ordered, on_room
        self._turn = 0
        self._fault: Optional[ClientError] = None
        self._is_closed = False

    def add(self, name: QueueName, tags: str) -> None:
        """Adds a queue that isn't there yet."""
        with self.changed:
            if name not in self.states:
                self.states[name] = QueueState(name, tags, self._is_ordered)

    def fail(self, fault: ClientError) -> None:
        """From now on `wait` raises this."""
        with self.changed:
            self._fault = fault
            self.changed.notify_all()

    def close(self) -> None:
        """From now on `wait` gives nothing."""
        with self.changed:
            self._is_closed = True
            self.changed.notify_all()

    def wait(self, timeout: float) -> Optional[Message]:
        """The next message, in work from now on, or None after so many seconds. The queues take turns."""
        deadline = time.monotonic() + timeout
        with self.changed:
            while True:
                if self._fault is not None:
                    raise self._fault
                message = None if self._is_closed else self._take()
                left = deadline - time.monotonic()
                if message is not None or left <= 0 or self._is_closed:
                    return message
                self.changed.wait(min(left, 0.05))  # a pause of a message may be over by then

    def finish(self, message: Message) -> None:
        """The message is done."""
        with self.changed:
            state = self.states.get((message.topic, message.queue))
            if state is not None:
                state.finish(message)
            self.changed.notify_all()

    def put_back(self, message: Message, pause: float) -> None:
        """The message is given again after so many seconds."""
        with self.changed:
            state = self.states.get((message.topic, message.queue))
            if state is not None:
                state.put_back(message, time.monotonic() + pause)

    def restart(self) -> None:
        """The connection was made again: the broker may have forgotten locks, and the offsets of the last seconds."""
        with self.changed:
            for state in self.states.values():
                if self._is_ordered:
                    state.forget()
                else:
                    state.stored, state.is_pulling = None, False
                    state.round += 1

    def owned(self) -> List[QueueName]:
        """The queues of which messages are given now."""
        with self.changed:
            now = time.monotonic()
            return sorted(state.name for state in self.states.values() if now < state.locked_until)

    def startable(self) -> List[QueueState]:
        """Queues of which it isn't known where to begin."""
        with self.changed:
            now = time.monotonic()
            return [state for state in self.states.values()
                    if state.position is None and state.is_idle and state.due <= now < state.locked_until]

    def pullable(self) -> List[Tuple[QueueState, int]]:
        """Queues to be pulled from now, and the offsets to pull at. They count as being pulled from."""
        with self.changed:
            now, found = time.monotonic(), []
            for state in self.states.values():
                is_free = not state.is_pulling and state.held < ENOUGH_HELD
                if state.position is not None and is_free and state.due <= now < state.locked_until:
                    state.is_pulling = True
                    found.append((state, state.position))
            return found

    def uncommitted(self) -> List[Tuple[QueueState, int]]:
        """Queues whose stored offset isn't what it should be, and what it should be."""
        with self.changed:
            now = time.monotonic()
            undone = [(state, state.next_undone()) for state in self.states.values() if now < state.locked_until]
            return [(state, offset) for state, offset in undone if offset is not None and offset != state.stored]

    def _take(self) -> Optional[Message]:
        states, now = list(self.states.values()), time.monotonic()
        for step in range(len(states)):
            state = states[(self._turn + step) % len(states)]
            message = state.take(now)
            if message is not None:
                self._turn = (self._turn + step + 1) % len(states)
                if state.held == ENOUGH_HELD - 1:
                    self._on_room()
                return message
        return None
