"""What can go wrong between a program and its broker.

    ClientError
    |- BrokerUnavailable    no connection could be made: nothing was sent
    |- ConnectionClosed     this program closed its connection: nothing was sent
    |- ReplyLost            the request was sent, and no reply to it came
    |  |- ConnectionLost    the connection ended before the reply, or inside it
    |  |- ProtocolError     the peer sent bytes that are no frame: it is no broker, or damaged them
    |  `- RequestTimeout    nothing came in time
    |- SendUnknown          a send, or a decision on a half message, of which nobody knows whether the broker stored it
    `- BrokerError          the broker refused the request, with a code and a remark
       |- NotSupported      3: this broker doesn't serve such a request
       |- TopicNotFound     17: the broker doesn't know the topic
       `- NotFound          22: there is no such message, or no such offset

Each of them has `code` and `remark`: the reply's where there was one, else `None` and an empty text.
"""
from __future__ import annotations

from typing import Dict, Optional, Type

from .codes import ReplyCode


class ClientError(Exception):
    """The base of all errors of this package."""

    def __init__(self, text: str, *, code: Optional[int] = None, remark: str = "") -> None:
        super().__init__(text)
        self.code = code
        self.remark = remark


class BrokerUnavailable(ClientError):
    """No connection to a broker could be made in time. Nothing was sent."""


class ConnectionClosed(ClientError):
    """The connection was closed by this program. Nothing was sent."""


class ReplyLost(ClientError):
    """The request was sent, and no reply to it came. The broker may have carried it out or not."""


class ConnectionLost(ReplyLost):
    """The connection ended before the reply, or in the middle of it."""


class ProtocolError(ReplyLost):
    """The peer sent bytes that aren't a frame or a record."""


class RequestTimeout(ReplyLost):
    """No reply came in time."""


class SendUnknown(ClientError):
    """Whether the message was stored is not known. It is never sent again by this package.

    Either its reply was lost, and `__cause__` says how, or the broker itself doesn't know: it replied with code 10
    since its disk failed while it wrote the message, or with 901 since it had no memory for the reply. A message that
    is sent again may be stored twice; its consumers can see that by a key or a number of your own. A decision on a half
    message may be told again: it is taken once.
    """


class BrokerError(ClientError):
    """The broker refused the request. `code` and `remark` are its own words."""


class NotSupported(BrokerError):
    """This broker doesn't serve such a request or such a message."""


class TopicNotFound(BrokerError):
    """The broker doesn't know the topic."""


class NotFound(BrokerError):
    """There is no such message, or the group has stored no offset."""


_KINDS: Dict[int, Type[BrokerError]] = {
    ReplyCode.NOT_SUPPORTED: NotSupported,
    ReplyCode.NO_TOPIC: TopicNotFound,
    ReplyCode.NOT_FOUND: NotFound,
}


def refusal(what: str, code: int, remark: str) -> BrokerError:
    """The error for a reply that isn't the one hoped for; `what` says what was asked, as `send to Orders`."""
    said = f"reply code {code}" + (f": {remark}" if remark else "")
    kind = _KINDS.get(code, BrokerError)
    meaning = "this broker doesn't support that" if kind is NotSupported else "the broker refused"
    return kind(f"{what}: {meaning} ({said})", code=code, remark=remark)
