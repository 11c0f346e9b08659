"""The numbers of the protocol that have names: requests, replies, bits of `sysFlag`, properties and delays."""
from __future__ import annotations

import enum


class RequestCode(enum.IntEnum):
    """What is asked for."""

    SEND_MESSAGE = 10
    PULL_MESSAGE = 11
    QUERY_MESSAGE = 12
    QUERY_CONSUMER_OFFSET = 14
    UPDATE_CONSUMER_OFFSET = 15
    UPDATE_AND_CREATE_TOPIC = 17
    SEARCH_OFFSET_BY_TIMESTAMP = 29
    GET_MAX_OFFSET = 30
    GET_MIN_OFFSET = 31
    VIEW_MESSAGE_BY_ID = 33
    HEART_BEAT = 34
    UNREGISTER_CLIENT = 35
    CONSUMER_SEND_MSG_BACK = 36
    END_TRANSACTION = 37
    CHECK_TRANSACTION_STATE = 39  # the broker asks this of a producer
    LOCK_BATCH_MQ = 41
    UNLOCK_BATCH_MQ = 42
    SEND_BATCH_MESSAGE = 320


class ReplyCode(enum.IntEnum):
    """How it was answered."""

    OK = 0
    REFUSED = 1
    NOT_SUPPORTED = 3
    FLUSH_FAILED = 10
    ILLEGAL = 13
    NO_TOPIC = 17
    NOTHING_YET = 19
    NOTHING_MATCHES = 20
    OUTSIDE_QUEUE = 21
    NOT_FOUND = 22
    NO_MEMORY = 901


class PullFlag(enum.IntFlag):
    """The bits of a pull's `sysFlag`."""

    COMMIT = 1
    SUSPEND = 2
    SUBSCRIPTION = 4


COMPRESSED = 1  # a bit of a message's `sysFlag`: its body is compressed
PREPARED = 4  # a bit of a send's `sysFlag`: a half message

REPLY_FLAG, ONE_WAY_FLAG = 1, 2  # the bits of a frame's flag

DEFAULT_TOPIC = "TBW102"  # a send that names it makes its topic where it isn't known
MOST_QUEUES_OF_A_NEW_TOPIC = 8
MOST_QUEUES = 1024
RETRY_PREFIX = "%RETRY%"

# how long each delay level holds a message back, in milliseconds; level 1 is the first one
DELAYS = tuple(1000 * seconds for seconds in (
    1, 5, 10, 30, 60, 120, 180, 240, 300, 360, 420, 480, 540, 600, 1200, 1800, 3600, 7200))
