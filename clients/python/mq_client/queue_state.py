"""How far one consumer has come in one queue.

    to be pulled -> held -> [take] in work -> [finish] done
                     ^--- [put_back, with a pause] ---'

All offsets below `next_undone` are done; that is the offset that is stored for the group.
"""
from __future__ import annotations

import bisect
from typing import Dict, List, Optional, Tuple

from .message import Message

QueueName = Tuple[str, int]  # the topic and the queue's number

SHORTEST_WAIT, LONGEST_WAIT = 0.05, 0.5  # seconds between pulls that find nothing
HELD_SECONDS = 1.0  # a pull that took so long and found nothing was held by the broker


class QueueState:
    """One queue of a topic, for one thread at a time. Times are those of `time.monotonic`."""

    def __init__(self, name: QueueName, tags: str, is_ordered: bool) -> None:
        self.name, self.tags = name, tags
        self._wanted = frozenset(tag.strip() for tag in tags.split("||")) - {"*", ""}
        self._is_ordered = is_ordered

        # messages, by offset
        self._held: List[Message] = []
        self._in_work: Dict[int, Message] = {}
        self._not_before: Dict[int, float] = {}  # of those held that pause

        # offsets
        self.position: Optional[int] = None  # where the next pull begins; None where it isn't known where to begin
        self.floor = 0  # where this consumer would begin again by what it has done itself
        self.stored: Optional[int] = None  # what the broker has stored for the group, as far as is known

        # pulls
        self.locked_until = 0.0 if is_ordered else float("inf")
        self.round = 0  # answers to pulls of earlier rounds are ignored
        self.is_pulling = False
        self.due = 0.0
        self._wait = 0.0

    @property
    def held(self) -> int:
        """How many messages wait to be taken."""
        return len(self._held)

    @property
    def is_idle(self) -> bool:
        """Whether no message is in work."""
        return not self._in_work

    def next_undone(self) -> Optional[int]:
        """The first offset that isn't done; None where it isn't known where to begin."""
        if self.position is None:
            return None
        first_held = [self._held[0].queue_offset] if self._held else []
        return min([*self._in_work, *first_held, self.position])

    def begin(self, offset: int) -> None:
        """The next pull begins here."""
        self.position = self.floor = offset
        self.due = 0.0

    def forget(self) -> None:
        """The queue may be another consumer's now: what is held is dropped, and the queue has to begin again."""
        undone = self.next_undone()
        if undone is not None:
            self.floor = undone
        self._held.clear()
        self._not_before.clear()
        self.position, self.stored, self.locked_until = None, None, 0.0
        self.round += 1
        self.is_pulling = False

    def found(self, messages: List[Message], following: int) -> None:
        """A pull found these, and the next one begins at `following`."""
        assert self.position is not None
        self._held += [one for one in messages if one.queue_offset >= self.position and self._is_wanted(one)]
        self.position = following
        self.due = self._wait = 0.0

    def found_nothing(self, now: float, seconds: float) -> None:
        """A pull found nothing after so many seconds. If the broker didn't hold it, the next one waits."""
        if seconds >= HELD_SECONDS:
            self.due = self._wait = 0.0
            return
        self._wait = min(LONGEST_WAIT, max(SHORTEST_WAIT, 1.5 * self._wait))
        self.due = now + self._wait

    def take(self, now: float) -> Optional[Message]:
        """The next message that isn't pausing, in work from now on; in order, one at a time."""
        if now >= self.locked_until or (self._is_ordered and self._in_work):
            return None
        for at, message in enumerate(self._held):
            if self._not_before.get(message.queue_offset, 0.0) <= now:
                del self._held[at]
                self._not_before.pop(message.queue_offset, None)
                self._in_work[message.queue_offset] = message
                return message
            if self._is_ordered:
                break
        return None

    def finish(self, message: Message) -> None:
        """The message is done. One that isn't in work is ignored."""
        if self._in_work.pop(message.queue_offset, None) is None:
            return
        undone = self.next_undone()
        if undone is not None:
            self.floor = undone
        elif self._is_ordered:
            self.floor = max(self.floor, message.queue_offset + 1)

    def put_back(self, message: Message, not_before: float) -> None:
        """The message is taken again, from that time on. One that isn't in work is ignored."""
        if self._in_work.pop(message.queue_offset, None) is None or self.position is None:
            return  # in the second case it is pulled again
        offsets = [one.queue_offset for one in self._held]
        self._held.insert(bisect.bisect(offsets, message.queue_offset), message)
        self._not_before[message.queue_offset] = not_before

    def _is_wanted(self, message: Message) -> bool:
        """The broker chooses by a hash of the tag, which other tags may have too."""
        return not self._wanted or message.tags in self._wanted
