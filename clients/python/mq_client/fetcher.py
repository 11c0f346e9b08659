"""The thread of a consumer: it asks the broker for all that the consumer needs.

Over and over it finds the topics' queues, renews locks, asks where to begin in queues that are new, pulls from all
queues at once, and stores the offsets of what is done. A broker that is gone is asked again until the consumer's
patience is over.
"""
from __future__ import annotations

import logging
import queue
import threading
import time
from concurrent.futures import Future
from dataclasses import dataclass
from typing import Callable, Dict, List, Mapping, Optional, Set

from .codes import PullFlag, ReplyCode, RequestCode
from .connection import Connection, fault_of
from .errors import BrokerError, ClientError, ConnectionClosed, ProtocolError, refusal
from .frame import Frame
from .locks import RENEW_SECONDS, TRUST_SECONDS, QueueLocks
from .message import read_records
from .queue_state import QueueName, QueueState
from .queue_table import QueueTable
from .queues import KEEP_SECONDS, count_queues

SUSPEND_SECONDS = 15.0  # how long the broker may hold a pull that finds nothing, if it can
MOST_A_PULL = 32
COMMIT_SECONDS = 1.0
LOOK_SECONDS = 0.5  # between looks for a topic that isn't there yet, and for locks that another consumer has

log = logging.getLogger("mq_client")


@dataclass(frozen=True)
class Plan:
    """What a consumer consumes: topics with the tags that are wanted, and single queues, which the table has already.

    `looks` has the seconds between looks for a topic that isn't there yet, where they aren't the usual ones.
    """

    group: str
    topics: Mapping[str, str]
    looks: Mapping[str, float]
    is_ordered: bool
    max_queues: Optional[int]
    start: RequestCode  # that asks for the offset at which a new group begins
    patience: float


class Fetcher:
    """Fills a table of queues, by one thread."""

    def __init__(self, connection: Connection, plan: Plan, locks: QueueLocks) -> None:
        self._connection, self._plan, self._locks = connection, plan, locks
        self._events: queue.SimpleQueue[Optional[Callable[[], None]]] = queue.SimpleQueue()
        self.table = QueueTable(plan.is_ordered, lambda: self._events.put(None))
        self._failing_since: Optional[float] = None
        self._times_made = 0
        self._topics_due: Dict[str, float] = {}
        self._locks_due = self._commits_due = 0.0
        self._closing = threading.Event()
        self._thread = threading.Thread(target=self._work, name="mq_client consumer", daemon=True)

    def start(self) -> None:
        """Finds the queues, so that a broker that is gone, or is none, is reported at once; then goes to work."""
        self._find_queues()
        self._thread.start()

    def close(self) -> None:
        """Ends the thread, stores the offsets and gives locks back. `ClientError` where the broker can't be asked."""
        self._closing.set()
        self._events.put(None)
        if self._thread.is_alive():
            self._thread.join(2 * self._connection.timeout + 1)
        self.commit()
        if self._plan.is_ordered:
            self._locks.unlock(self.table.owned())

    def commit(self) -> None:
        """Stores the offsets of what is done, where the broker has others."""
        for state, offset in self.table.uncommitted():
            topic, number = state.name
            reply = self._connection.request(RequestCode.UPDATE_CONSUMER_OFFSET, {
                "consumerGroup": self._plan.group, "topic": topic, "queueId": str(number), "commitOffset": str(offset)})
            if reply.code != ReplyCode.OK:
                raise refusal(f"store an offset of {self._plan.group} in {topic}", reply.code, reply.remark)
            with self.table.changed:
                state.stored = offset

    def _work(self) -> None:
        while not self._closing.is_set():
            try:
                self._step()
            except BrokerError as fault:
                self._refused(fault)
            except ConnectionClosed as fault:
                return self.table.fail(fault)
            except ClientError as fault:
                self._lose_patience(fault)
            self._wait()

    def _step(self) -> None:
        if self._times_made != self._connection.times_made:
            self._times_made = self._connection.times_made
            self._locks_due = 0.0
            self.table.restart()
        self._find_queues()
        self._keep_locks()
        for state in self.table.startable():
            self._start_queue(state)
        for state, offset in self.table.pullable():
            self._pull(state, offset)
        if time.monotonic() >= self._commits_due:
            self.commit()
            self._commits_due = time.monotonic() + COMMIT_SECONDS

    def _wait(self) -> None:
        """Until a pull was answered, or something else may be due; then handles the answers."""
        try:
            event = self._events.get(timeout=0.05)
            while True:
                if event is not None:
                    event()
                event = self._events.get_nowait()
        except queue.Empty:
            return

    def _refused(self, fault: BrokerError) -> None:
        """A refusal that would come again ends the consumer; one for a passing trouble of the broker doesn't."""
        if fault.code == ReplyCode.NO_MEMORY or (fault.code == ReplyCode.REFUSED and fault.remark.startswith("read ")):
            log.warning("%s", fault)
        else:
            self.table.fail(fault)

    def _lose_patience(self, fault: ClientError) -> None:
        now = time.monotonic()
        if self._failing_since is None or self._connection.heard_at > self._failing_since:
            self._failing_since = now
            log.warning("a consumer of %s lost its broker: %s", self._plan.group, fault)
        elif now - self._failing_since > self._plan.patience:
            self.table.fail(fault)

    def _find_queues(self) -> None:
        now = time.monotonic()
        for topic, tags in self._plan.topics.items():
            if now < self._topics_due.get(topic, 0.0):
                continue
            count = count_queues(self._connection, topic)
            for number in range(count or 0):
                self.table.add((topic, number), tags)
            look = self._plan.looks.get(topic, LOOK_SECONDS) if count is None else KEEP_SECONDS
            self._topics_due[topic] = now + look

    def _keep_locks(self) -> None:
        """Renews the locks that this consumer has, and asks for more while it has fewer than it may have."""
        now = time.monotonic()
        if not self._plan.is_ordered or now < self._locks_due:
            return
        mine, others = self._by_lock(now)
        most = len(mine) + len(others)
        wanted = most if self._plan.max_queues is None else min(most, self._plan.max_queues)
        got = self._lock(mine)
        while others and len(got) < wanted:
            some = others[:wanted - len(got)]
            others = others[len(some):]
            got |= self._lock(some)
        self._note_locks(got, now + TRUST_SECONDS)
        self._locks_due = now + (LOOK_SECONDS if len(got) < wanted else RENEW_SECONDS)

    def _by_lock(self, now: float) -> tuple[List[QueueName], List[QueueName]]:
        """The queues whose locks this consumer has, and the others: first those in which it has done something."""
        with self.table.changed:
            states = self.table.states
            for state in states.values():
                if 0 < state.locked_until <= now:
                    state.forget()  # another consumer may have had it since
            mine = [name for name, state in states.items() if state.locked_until > 0]
            others = [name for name, state in states.items() if state.locked_until <= 0]
            return mine, sorted(others, key=lambda name: states[name].floor == 0)

    def _lock(self, names: List[QueueName]) -> Set[QueueName]:
        return self._locks.lock(names) if names else set()

    def _note_locks(self, got: Set[QueueName], until: float) -> None:
        with self.table.changed:
            for name, state in self.table.states.items():
                if name in got:
                    state.locked_until = until
                elif state.locked_until > 0:
                    log.warning("another consumer has queue %s of %s now", name[1], name[0])
                    state.forget()

    def _start_queue(self, state: QueueState) -> None:
        topic, number = state.name
        fields = {"topic": topic, "queueId": str(number)}
        stored = self._offset(RequestCode.QUERY_CONSUMER_OFFSET, {**fields, "consumerGroup": self._plan.group})
        offset = stored if stored is not None else self._offset(self._plan.start, fields)
        with self.table.changed:
            if offset is None:
                state.due = time.monotonic() + LOOK_SECONDS
                return
            state.stored = stored
            state.begin(max(offset, state.floor))

    def _offset(self, code: RequestCode, fields: Mapping[str, str]) -> Optional[int]:
        """The offset that is asked for; None where there is none, or the topic isn't there yet."""
        reply = self._connection.request(code, fields, is_repeatable=True)
        if reply.code in (ReplyCode.NOT_FOUND, ReplyCode.NO_TOPIC):
            return None
        if reply.code != ReplyCode.OK:
            raise refusal(f"ask for an offset of {fields['topic']}", reply.code, reply.remark)
        return int(reply.fields["offset"])

    def _pull(self, state: QueueState, offset: int) -> None:
        """Asks for messages of the queue; the same request stores the offset of what is done in it."""
        with self.table.changed:
            undone, this_round = state.next_undone(), state.round
        topic, number = state.name
        flags = PullFlag.COMMIT | PullFlag.SUSPEND | PullFlag.SUBSCRIPTION
        fields = {"consumerGroup": self._plan.group, "topic": topic, "queueId": str(number), "queueOffset": str(offset),
                  "maxMsgNums": str(MOST_A_PULL), "sysFlag": str(int(flags)), "commitOffset": str(undone),
                  "suspendTimeoutMillis": str(int(1000 * SUSPEND_SECONDS)), "subscription": state.tags,
                  "subVersion": "0", "expressionType": "TAG"}
        asked_at = time.monotonic()
        try:
            reply = self._connection.request_async(RequestCode.PULL_MESSAGE, fields,
                                                   timeout=SUSPEND_SECONDS + self._connection.timeout)
        except ClientError:
            with self.table.changed:
                state.is_pulling = False
            raise
        reply.add_done_callback(lambda done: self._events.put(
            lambda: self._pulled(state, this_round, undone, asked_at, done)))

    def _pulled(self, state: QueueState, this_round: int, undone: Optional[int], asked_at: float,
                reply: Future[Frame]) -> None:
        now, fault = time.monotonic(), fault_of(reply)
        with self.table.changed:
            if state.round != this_round:
                return  # the queue was begun again since
            state.is_pulling = False
            if fault is not None:
                state.found_nothing(now, 0.0)
                return self._lose_patience(fault)
            try:
                self._take_in(state, reply.result(), now, now - asked_at)
                state.stored = undone
            except BrokerError as refused:
                state.found_nothing(now, 0.0)
                self._refused(refused)
            except ProtocolError as damaged:
                self.table.fail(damaged)
            self.table.changed.notify_all()

    def _take_in(self, state: QueueState, reply: Frame, now: float, seconds: float) -> None:
        if reply.code == ReplyCode.OK:
            state.found(read_records(reply.body), int(reply.fields["nextBeginOffset"]))
        elif reply.code in (ReplyCode.NOTHING_YET, ReplyCode.NO_TOPIC):
            state.found_nothing(now, seconds)
        elif reply.code in (ReplyCode.NOTHING_MATCHES, ReplyCode.OUTSIDE_QUEUE):
            state.found([], int(reply.fields["nextBeginOffset"]))
        else:
            raise refusal(f"pull from queue {state.name[1]} of {state.name[0]}", reply.code, reply.remark)
