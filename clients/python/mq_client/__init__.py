"""A client of mq_broker: sends, consumers, transactions and questions. README.md beside this package has an example."""
from __future__ import annotations

from .admin import Admin, PullResult
from .connection import Connection
from .consumer import Consumer
from .errors import (BrokerError, BrokerUnavailable, ClientError, ConnectionClosed, ConnectionLost, NotFound,
                     NotSupported, ProtocolError, ReplyLost, RequestTimeout, SendUnknown, TopicNotFound)
from .frame import Form
from .message import Message, Outgoing
from .producer import Producer, SendResult
from .transaction import Check, Decision, HalfName, TransactionListener, TransactionProducer, TransactionResult

__version__ = "0.1.0"

__all__ = [
    "Admin", "BrokerError", "BrokerUnavailable", "Check", "ClientError", "Connection", "ConnectionClosed",
    "ConnectionLost", "Consumer", "Decision", "Form", "HalfName", "Message", "NotFound", "NotSupported", "Outgoing",
    "Producer", "ProtocolError", "PullResult", "ReplyLost", "RequestTimeout", "SendResult", "SendUnknown",
    "TopicNotFound", "TransactionListener", "TransactionProducer", "TransactionResult",
]
