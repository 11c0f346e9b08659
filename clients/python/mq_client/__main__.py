"""The command line: python3 -m mq_client [--broker HOST:PORT] COMMAND ..; each command has --help.

Exit status 0: done. 1: it couldn't be done, or not all of it; standard error says why.
"""
from __future__ import annotations

import argparse
import logging
import os
import sys
import time
from typing import Any, Callable, Dict, List, NoReturn, Optional, Sequence

from . import __version__
from .admin import Admin, queues_of
from .codes import DELAYS
from .connection import Connection, default_broker
from .consumer import Consumer
from .errors import ClientError
from .frame import Form
from .message import Message
from .producer import Producer, SendResult
from .transaction import Decision, HalfName, TransactionProducer


DECISIONS = [decision.name.lower() for decision in Decision]


class _Parser(argparse.ArgumentParser):
    """Wrong arguments are exit status 1 too."""

    def error(self, message: str) -> NoReturn:
        self.print_usage(sys.stderr)
        self.exit(1, f"{self.prog}: {message}\n")


def main(arguments: Optional[Sequence[str]] = None) -> int:
    """Runs one command; its exit status."""
    said = _parser().parse_args(arguments)
    logging.basicConfig(format="mq_client: %(message)s", level=logging.DEBUG if said.verbose else logging.WARNING)
    try:
        form = Form.BINARY if said.binary else Form.JSON
        with Connection(said.broker, timeout=said.timeout, form=form) as connection:
            said.run(connection, said)
        return 0
    except (ClientError, ValueError) as fault:
        print(f"mq_client: {fault}", file=sys.stderr)
        return 1
    except KeyboardInterrupt:
        return 1
    except BrokenPipeError:
        os.dup2(os.open(os.devnull, os.O_WRONLY), sys.stdout.fileno())  # else Python complains when it ends
        return 1


def _parser() -> argparse.ArgumentParser:
    parser = _Parser(prog="mq_client", description="Sends and takes messages of an mq_broker, and asks about them.")
    parser.add_argument("--broker", default=default_broker(), metavar="HOST:PORT",
                        help="the broker's address, or `pipe:` and the command of one that is run for this, as "
                        "'pipe:mq_broker pipe' (default: %(default)s, or what MQ_BROKER is in the environment)")
    parser.add_argument("--timeout", type=float, default=3.0, metavar="SECONDS",
                        help="for each request (default: %(default)s)")
    parser.add_argument("--binary", action="store_true", help="use the binary form of headers rather than JSON")
    parser.add_argument("--verbose", action="store_true", help="log on standard error what happens on the connection")
    parser.add_argument("--version", action="version", version=f"mq_client {__version__}")
    commands = parser.add_subparsers(dest="command", required=True, metavar="COMMAND", parser_class=_Parser)
    for add in (_add_send, _add_pull, _add_consume, _add_transaction, _add_commit, _add_rollback, _add_check,
                _add_delay, _add_query, _add_view, _add_topics, _add_offsets):
        add(commands)
    return parser


def _command(commands: Any, name: str, run: Callable[[Connection, Any], None], text: str) -> argparse.ArgumentParser:
    parser: argparse.ArgumentParser = commands.add_parser(name, help=text, description=text[0].upper() + text[1:] + ".")
    parser.set_defaults(run=run)
    return parser


def _add_message(parser: argparse.ArgumentParser, texts: str) -> None:
    """The arguments of all commands that send."""
    parser.add_argument("topic")
    parser.add_argument("text", nargs=texts, help="the body of a message")
    parser.add_argument("--group", default="producers", help="the producer group (default: %(default)s)")
    parser.add_argument("--queue", type=int, help="the queue (default: the topic's queues take turns)")
    parser.add_argument("--tags", help="the tag that consumers may choose by")
    parser.add_argument("--keys", default="", help="words by which the message may be found, between spaces")
    parser.add_argument("--property", action="append", default=[], metavar="NAME=VALUE", help="a further property")


def _add_send(commands: Any) -> None:
    parser = _command(commands, "send", _send, "send messages, each once the one before is stored")
    _add_message(parser, "+")
    parser.add_argument("--no-wait", action="store_true", help="have it answered before it is on the broker's disk")
    parser.add_argument("--delay", type=int, choices=range(1, len(DELAYS) + 1), default=0, metavar="LEVEL",
                        help="have it held back: level 1 is 1 s, 18 is 2 h; `delay` finds the level for a time")
    parser.add_argument("--half", action="store_true",
                        help="store half messages, which nobody sees before `commit`; their names are printed")


def _add_pull(commands: Any) -> None:
    parser = _command(commands, "pull", _pull, "print messages of one queue, without a group")
    parser.add_argument("topic")
    parser.add_argument("--queue", type=int, default=0, help="(default: %(default)s)")
    parser.add_argument("--offset", type=int, default=0, help="of the first one (default: %(default)s)")
    parser.add_argument("--count", type=int, default=32, help="at most so many (default: %(default)s)")
    parser.add_argument("--tags", default="*", help="only those with such a tag, as 'A || B'")


def _add_consume(commands: Any) -> None:
    parser = _command(commands, "consume", _consume, "print messages for a group, which continues where it stopped")
    parser.add_argument("topic", nargs="+")
    parser.add_argument("--group", default="consumers", help="the consumer group (default: %(default)s)")
    parser.add_argument("--tags", default="*", help="only those with such a tag, as 'A || B'")
    parser.add_argument("--count", type=int, help="end after so many")
    parser.add_argument("--idle", type=float, metavar="SECONDS", help="end once none came for so long (default: never)")
    parser.add_argument("--ordered", action="store_true",
                        help="lock the queues, so that no other consumer of the group works on them")
    parser.add_argument("--max-queues", type=int, metavar="N", help="with --ordered: lock at most so many queues")
    parser.add_argument("--start", choices=("first", "last"), default="first",
                        help="where a new group begins (default: %(default)s)")


def _add_transaction(commands: Any) -> None:
    parser = _command(commands, "transaction", _transaction, "send a half message, and then decide about it")
    _add_message(parser, "?")
    parser.set_defaults(text="", group="transactions")
    parser.add_argument("--decide", choices=DECISIONS, default="commit",
                        help="at once; after `unknown` the broker asks (default: %(default)s)")
    parser.add_argument("--check", choices=DECISIONS, default="commit",
                        help="what the broker is answered when it asks (default: %(default)s)")
    parser.add_argument("--stay", type=float, default=0.0, metavar="SECONDS", help="wait so long for the broker to ask")


def _add_commit(commands: Any) -> None:
    _add_decision(_command(commands, "commit", _commit, "have consumers see half messages"))


def _add_rollback(commands: Any) -> None:
    _add_decision(_command(commands, "rollback", _rollback, "have nobody see half messages"))


def _add_decision(parser: argparse.ArgumentParser) -> None:
    parser.add_argument("half", nargs="+", help="the name of a half message, as `send --half` prints it")
    parser.add_argument("--group", default="producers", help="the producer group (default: %(default)s)")


def _add_check(commands: Any) -> None:
    parser = _command(commands, "check", _check, "answer what the broker asks about a group's half messages")
    parser.add_argument("--group", default="producers", help="the producer group (default: %(default)s)")
    parser.add_argument("--answer", choices=DECISIONS, default="unknown",
                        help="for each; after `unknown` the broker asks again (default: %(default)s)")
    parser.add_argument("--count", type=int, help="end after so many")
    parser.add_argument("--idle", type=float, metavar="SECONDS",
                        help="end once none came for so long (default: never)")


def _add_delay(commands: Any) -> None:
    parser = _command(commands, "delay", _delay, "send messages that are held back for a time")
    _add_message(parser, "+")
    parser.add_argument("--seconds", type=float, default=10.0,
                        help="at least so much later: there are delays of 1, 5, 10 and 30 s, 1 to 10, 20 and 30 min, "
                        "and 1 and 2 h (default: %(default)s)")


def _add_query(commands: Any) -> None:
    parser = _command(commands, "query", _query, "print the newest messages of a topic that have a key")
    parser.add_argument("topic")
    parser.add_argument("key")
    parser.add_argument("--count", type=int, default=32, help="at most so many (default: %(default)s)")


def _add_view(commands: Any) -> None:
    parser = _command(commands, "view", _view, "print the message with an id")
    parser.add_argument("message_id", help="as `send` prints it: 32 hexadecimal digits")


def _add_topics(commands: Any) -> None:
    parser = _command(commands, "topics", _topics, "print the queues of topics, or make a topic")
    parser.add_argument("topic", nargs="+")
    parser.add_argument("--create", type=int, metavar="QUEUES", help="make them with so many queues first")


def _add_offsets(commands: Any) -> None:
    parser = _command(commands, "offsets", _offsets, "print how far a group has come in a topic, or set it")
    parser.add_argument("topic")
    parser.add_argument("--group", default="consumers", help="the consumer group (default: %(default)s)")
    parser.add_argument("--time", type=int, metavar="MILLIS",
                        help="print the offset of the first message since that time (milliseconds since 1970), too")
    parser.add_argument("--reset", choices=("first", "last"), help="have the group continue at that end of each queue")


def _message(said: Any) -> Dict[str, Any]:
    """What all sends of the command have, but for their texts."""
    pairs = [pair.partition("=") for pair in said.property]
    for name, equals, _ in pairs:
        if not equals or not name:
            raise ValueError(f"no property: {name!r} (wanted NAME=VALUE)")
    properties = {name: value for name, _, value in pairs}
    return {"tags": said.tags, "keys": said.keys, "properties": properties, "queue": said.queue}


def _send(connection: Connection, said: Any) -> None:
    if said.half:
        if said.delay or said.no_wait:
            raise ValueError("a half message isn't delayed, and is answered once it is on the disk")
        return _send_halves(connection, said)
    _send_all(connection, said, said.delay, wait=not said.no_wait)


def _send_all(connection: Connection, said: Any, level: int, wait: bool = True) -> None:
    """Sends the texts with this delay level, and prints where each is stored or how long it is held back."""
    with Producer(connection, said.group) as producer:
        for text in said.text:
            sent = producer.send(said.topic, text, delay_level=level, wait=wait, **_message(said))
            where = f"{sent.topic}, queue {sent.queue}"
            if level == 0:
                where += f", offset {sent.queue_offset}, id {sent.message_id}"
            else:
                where += f", held back for {DELAYS[level - 1] // 1000} s"
            print(f"sent {text!r} to {where}", flush=True)


def _send_halves(connection: Connection, said: Any) -> None:
    """Stores the texts as half messages, and prints the name of each."""
    with TransactionProducer(connection, said.group) as producer:
        for text in said.text:
            sent = producer.send_half(said.topic, text, **_message(said))
            where = f"{sent.topic}, queue {sent.queue}"
            print(f"stored {text!r} for {where}, as half message {HalfName.of(sent)}", flush=True)


def _commit(connection: Connection, said: Any) -> None:
    _decide(connection, said, Decision.COMMIT, "committed")


def _rollback(connection: Connection, said: Any) -> None:
    _decide(connection, said, Decision.ROLLBACK, "rolled back")


def _decide(connection: Connection, said: Any, decision: Decision, done: str) -> None:
    halves = [HalfName.read(text) for text in said.half]
    with TransactionProducer(connection, said.group) as producer:
        for half in halves:
            producer.end_transaction(half, decision)
            print(f"{done} {half}", flush=True)


def _check(connection: Connection, said: Any) -> None:
    with TransactionProducer(connection, said.group) as producer:
        for check in producer.checks(count=said.count, idle=said.idle):
            producer.end_transaction(check, Decision[said.answer.upper()])
            print(f"the broker asks about {check.message.text()!r}; answered: {said.answer}", flush=True)


def _delay(connection: Connection, said: Any) -> None:
    level = next((k for k, millis in enumerate(DELAYS, 1) if millis >= 1000 * said.seconds), None)
    if level is None:
        raise ValueError(f"a message is held back for at most {DELAYS[-1] // 1000} seconds")
    _send_all(connection, said, level)


class _Script:
    """A listener that decides what the command line said."""

    def __init__(self, decision: Decision, check: Decision) -> None:
        self._decision, self._check = decision, check

    def execute(self, message: SendResult, argument: Any) -> Decision:
        print(f"the half message is stored; decided: {self._decision.name.lower()}", flush=True)
        return self._decision

    def check(self, message: Message) -> Decision:
        print(f"the broker asks about {message.text()!r}; answered: {self._check.name.lower()}", flush=True)
        return self._check


def _transaction(connection: Connection, said: Any) -> None:
    listener = _Script(Decision[said.decide.upper()], Decision[said.check.upper()])
    with TransactionProducer(connection, said.group, listener) as producer:
        result = producer.send_in_transaction(said.topic, said.text, **_message(said))
        if result.fault is not None:
            print(f"the broker didn't get the decision, and will ask for it: {result.fault}", flush=True)
        time.sleep(said.stay)


def _pull(connection: Connection, said: Any) -> None:
    admin, offset, left = Admin(connection), said.offset, said.count
    while left > 0:
        found = admin.pull(said.topic, said.queue, offset, most=min(left, 32), tags=said.tags)
        for message in found.messages:
            _print_message(message)
        left -= len(found.messages)
        if found.next_offset == offset or found.next_offset >= found.max_offset:
            return
        offset = found.next_offset


def _consume(connection: Connection, said: Any) -> None:
    topics = {topic: said.tags for topic in said.topic}
    with Consumer(connection, said.group, topics, ordered=said.ordered, max_queues=said.max_queues,
                  start=said.start) as consumer:
        for message in consumer.messages(count=said.count, idle=said.idle):
            _print_message(message)


def _query(connection: Connection, said: Any) -> None:
    found = Admin(connection).query(said.topic, said.key, most=said.count)
    for message in found:
        _print_message(message)
    if not found:
        raise ClientError(f"no message of {said.topic} has the key {said.key}")


def _view(connection: Connection, said: Any) -> None:
    message = Admin(connection).view(said.message_id)
    _print_message(message)
    rows = [("id", message.message_id), ("stored", _time(message.store_time)), ("born", _time(message.born_time)),
            ("tags", message.tags), ("keys", " ".join(message.keys))]
    for name, value in rows:
        print(f"    {name:7}{value}")


def _topics(connection: Connection, said: Any) -> None:
    admin = Admin(connection)
    for topic in said.topic:
        if said.create is not None:
            admin.create_topic(topic, said.create)
        count = queues_of(admin, topic)
        ends = [(admin.min_offset(topic, queue), admin.max_offset(topic, queue)) for queue in range(count)]
        messages = sum(last - first for first, last in ends)
        print(f"{topic}: {_counted(count, 'queue')}, {_counted(messages, 'message')}", flush=True)


def _offsets(connection: Connection, said: Any) -> None:
    admin = Admin(connection)
    heads = ["queue", "first", "next", said.group, "left"] + (["since"] if said.time is not None else [])
    rows = [heads, *(_offsets_of(admin, said, queue) for queue in range(queues_of(admin, said.topic)))]
    widths = [max(len(row[k]) for row in rows) for k in range(len(heads))]
    for row in rows:
        print("  ".join(text.rjust(width) for text, width in zip(row, widths)))


def _offsets_of(admin: Admin, said: Any, queue: int) -> List[str]:
    """The row of one queue."""
    first, last = admin.min_offset(said.topic, queue), admin.max_offset(said.topic, queue)
    if said.reset:
        admin.set_consumer_offset(said.group, said.topic, queue, first if said.reset == "first" else last)
    stored = admin.consumer_offset(said.group, said.topic, queue)
    left = last - (first if stored is None else stored)
    row = [str(queue), str(first), str(last), "-" if stored is None else str(stored), str(left)]
    return row if said.time is None else [*row, str(admin.search_offset(said.topic, queue, said.time))]


def _print_message(message: Message) -> None:
    print(f"{message.topic}, queue {message.queue}, offset {message.queue_offset}: {message.text()!r}", flush=True)


def _counted(count: int, name: str) -> str:
    return f"{count} {name}" if count == 1 else f"{count} {name}s"


def _time(millis: int) -> str:
    return time.strftime("%Y-%m-%d %H:%M:%S", time.localtime(millis / 1000)) + f".{millis % 1000:03}"


if __name__ == "__main__":
    sys.exit(main())
