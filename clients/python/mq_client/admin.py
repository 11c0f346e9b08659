"""Questions about topics, queues and messages, and single pulls."""
from __future__ import annotations

from dataclasses import dataclass
from types import TracebackType
from typing import List, Mapping, Optional, Sequence, Type, Union

from .codes import DEFAULT_TOPIC, MOST_QUEUES, PullFlag, ReplyCode, RequestCode
from .connection import Connection, shared
from .errors import NotFound, TopicNotFound, refusal
from .frame import Frame
from .message import Message, place_of, read_records
from .queues import count_queues

FAR_FUTURE = 2 ** 62 - 1  # milliseconds, after any message


@dataclass(frozen=True)
class PullResult:
    """What one pull found: the messages, where to continue, and the least and the next offset of the queue."""

    messages: Sequence[Message]
    next_offset: int
    min_offset: int
    max_offset: int


class Admin:
    """What may be asked of a broker. Errors: `TopicNotFound`, other `BrokerError`, and those of the connection."""

    def __init__(self, connection: Union[Connection, str, None] = None) -> None:
        self.connection, self._is_own = shared(connection)

    def create_topic(self, topic: str, queues: int = 4) -> None:
        """Makes a topic with so many queues, 1 to 1,024; one that is there gets no fewer than it has."""
        if not 1 <= queues <= MOST_QUEUES:
            raise ValueError(f"a topic has 1 to {MOST_QUEUES} queues, not {queues}")
        fields = {"topic": topic, "readQueueNums": str(queues), "writeQueueNums": str(queues), "perm": "6",
                  "defaultTopic": DEFAULT_TOPIC, "topicFilterType": "SINGLE_TAG", "topicSysFlag": "0", "order": "false"}
        self._ask(f"create topic {topic}", RequestCode.UPDATE_AND_CREATE_TOPIC, fields, is_repeatable=False)

    def queue_count(self, topic: str) -> Optional[int]:
        """How many queues the topic has, or None where the broker doesn't know it."""
        return count_queues(self.connection, topic)

    def min_offset(self, topic: str, queue: int) -> int:
        """The offset of the first message that the queue has."""
        return self._offset(RequestCode.GET_MIN_OFFSET, topic, queue, {})

    def max_offset(self, topic: str, queue: int) -> int:
        """The offset that the queue's next message will have."""
        return self._offset(RequestCode.GET_MAX_OFFSET, topic, queue, {})

    def search_offset(self, topic: str, queue: int, time_millis: int) -> int:
        """The offset of the first message stored at this time or later; where there is none, `max_offset`."""
        return self._offset(RequestCode.SEARCH_OFFSET_BY_TIMESTAMP, topic, queue, {"timestamp": str(time_millis)})

    def consumer_offset(self, group: str, topic: str, queue: int) -> Optional[int]:
        """Where the group continues in the queue, or None where it has stored no offset."""
        try:
            return self._offset(RequestCode.QUERY_CONSUMER_OFFSET, topic, queue, {"consumerGroup": group})
        except NotFound:
            return None

    def set_consumer_offset(self, group: str, topic: str, queue: int, offset: int) -> None:
        """Has the group continue there. An offset past the queue's end counts as its end."""
        fields = {"consumerGroup": group, "topic": topic, "queueId": str(queue), "commitOffset": str(offset)}
        what = f"store an offset of {group} in {topic}"
        self._ask(what, RequestCode.UPDATE_CONSUMER_OFFSET, fields, is_repeatable=False)

    def pull(self, topic: str, queue: int, offset: int, *, most: int = 32, tags: str = "*",
             group: str = "admin") -> PullResult:
        """At most so many messages of the queue from this offset on; the broker gives at most 32 at a time."""
        fields = {"consumerGroup": group, "topic": topic, "queueId": str(queue), "queueOffset": str(offset),
                  "maxMsgNums": str(most), "sysFlag": str(int(PullFlag.SUBSCRIPTION)), "subscription": tags,
                  "subVersion": "0", "expressionType": "TAG"}
        found = (ReplyCode.OK, ReplyCode.NOTHING_YET, ReplyCode.NOTHING_MATCHES, ReplyCode.OUTSIDE_QUEUE)
        reply = self._ask(f"pull from queue {queue} of {topic}", RequestCode.PULL_MESSAGE, fields, good=found)
        said = {name: int(reply.fields[name]) for name in ("nextBeginOffset", "minOffset", "maxOffset")}
        return PullResult(read_records(reply.body), said["nextBeginOffset"], said["minOffset"], said["maxOffset"])

    def query(self, topic: str, key: str, *, most: int = 32, begin: int = 0, end: int = FAR_FUTURE) -> List[Message]:
        """The newest messages of the topic that have this key, stored between two times in milliseconds.

        `NotSupported` where the broker keeps no keys.
        """
        fields = {"topic": topic, "key": key, "maxNum": str(most), "beginTimestamp": str(begin),
                  "endTimestamp": str(end)}
        try:
            return read_records(self._ask(f"query {topic} by key", RequestCode.QUERY_MESSAGE, fields).body)
        except NotFound:
            return []

    def view(self, message_id: str) -> Message:
        """The message with this id. `NotFound` where there is none, `NotSupported` where the broker doesn't look."""
        fields = {"offset": str(place_of(message_id))}
        found = read_records(self._ask(f"view {message_id}", RequestCode.VIEW_MESSAGE_BY_ID, fields).body)
        if len(found) != 1:
            raise NotFound(f"view {message_id}: there is no such message")
        return found[0]

    def close(self) -> None:
        """Ends what was made here."""
        if self._is_own:
            self.connection.close()

    def __enter__(self) -> Admin:
        return self

    def __exit__(self, kind: Optional[Type[BaseException]], fault: Optional[BaseException],
                 trace: Optional[TracebackType]) -> None:
        self.close()

    def _offset(self, code: RequestCode, topic: str, queue: int, more: Mapping[str, str]) -> int:
        fields = {"topic": topic, "queueId": str(queue), **more}
        return int(self._ask(f"ask for an offset in queue {queue} of {topic}", code, fields).fields["offset"])

    def _ask(self, what: str, code: RequestCode, fields: Mapping[str, str], *, is_repeatable: bool = True,
             good: Sequence[int] = (ReplyCode.OK,)) -> Frame:
        reply = self.connection.request(code, fields, is_repeatable=is_repeatable)
        if reply.code not in good:
            raise refusal(what, reply.code, reply.remark)
        return reply


def queues_of(admin: Admin, topic: str) -> int:
    """How many queues the topic has. `TopicNotFound` where the broker doesn't know it."""
    count = admin.queue_count(topic)
    if count is None:
        raise TopicNotFound(f"topic {topic}: the broker doesn't know it", code=ReplyCode.NO_TOPIC)
    return count
