"""One connection to a broker, which many threads may use at once.

Requests are pipelined: each has a number of its own, a thread reads the replies, and each reply goes to whoever waits
for its number. Nothing waits longer than its timeout. When the connection has ended, the next request makes it again;
tries that fail are spaced out more and more, 50 ms to 2 s.

    closed by the peer, cut, or mute -> ConnectionLost    | for each request that waits for its reply
    bytes that are no frame          -> ProtocolError     |
    no reply in time                 -> RequestTimeout    |
    nobody listens                   -> BrokerUnavailable for each request, once its own time is over
"""
from __future__ import annotations

import concurrent.futures
import itertools
import logging
import os
import random
import selectors
import socket
import threading
import time
from concurrent.futures import Future
from types import TracebackType
from typing import Callable, Dict, Mapping, NamedTuple, Optional, Tuple, Type, Union

from .codes import ONE_WAY_FLAG, RequestCode
from .child import Child
from .errors import BrokerUnavailable, ClientError, ConnectionClosed, ConnectionLost, ReplyLost, RequestTimeout
from .frame import Form, Frame, FrameReader

DEFAULT_BROKER = "127.0.0.1:10911"
PIPE = "pipe:"  # before the command of a broker that is asked over its standard input and output
TICK = 0.1  # seconds: how much later than its deadline a request may be found overdue

log = logging.getLogger("mq_client")

Handler = Callable[[Frame], None]


def default_broker() -> str:
    """The broker in the environment's `MQ_BROKER`, else `127.0.0.1:10911`."""
    return os.environ.get("MQ_BROKER") or DEFAULT_BROKER


def parse_address(text: str) -> Tuple[str, int]:
    """The host and the port of `HOST:PORT`. `ValueError` where the text isn't of this form."""
    host, colon, port = text.rpartition(":")
    if not colon or not host or not (port.isascii() and port.isdigit()) or not 1 <= int(port) <= 65535:
        raise ValueError(f"no address: {text!r} (wanted HOST:PORT)")
    return host, int(port)


class _Waiting(NamedTuple):
    """A request whose reply hasn't come: times are those of `time.monotonic`."""

    reply: Future[Frame]
    sent_at: float
    deadline: float


class _Ended(Exception):
    """The connection had ended before anything was written."""


class _Link:
    """One TCP connection, from its opening to its end."""

    def __init__(self, name: str, stream: socket.socket, on_request: Handler) -> None:
        self._name, self._stream, self._on_request = name, stream, on_request
        self._writing = threading.Lock()
        self._guard = threading.Lock()  # of the two below
        self._waiting: Dict[int, _Waiting] = {}
        self._fault: Optional[ReplyLost] = None
        self._heard_at = time.monotonic()  # the last bytes
        self.frame_at = 0.0  # the last whole frame, 0 where none came
        self._reader = threading.Thread(target=self._read, name=f"mq_client reads {name}", daemon=True)
        self._reader.start()

    @property
    def is_ended(self) -> bool:
        """Whether nothing can be asked here any more."""
        return self._fault is not None

    def ask(self, request: Frame, deadline: float) -> Future[Frame]:
        """Writes the request. Its reply, or why there is none. `_Ended` where nothing was written."""
        reply: Future[Frame] = Future()
        reply.set_running_or_notify_cancel()  # so that nobody cancels it
        with self._guard:
            if self._fault is not None:
                raise _Ended
            self._waiting[request.opaque] = _Waiting(reply, time.monotonic(), deadline)
        try:
            self.write(request.encode(), deadline)
        except (_Ended, ValueError):
            with self._guard:
                self._waiting.pop(request.opaque, None)
            raise
        return reply

    def write(self, data: bytes, deadline: float) -> None:
        """Writes these bytes whole, or ends the connection. `_Ended` where it had ended before."""
        if not self._writing.acquire(timeout=max(0.0, deadline - time.monotonic())):
            self.end(ConnectionLost(f"{self._name} takes no bytes any more"))
            raise _Ended
        try:
            if self._fault is not None:
                raise _Ended
            self._stream.settimeout(max(0.001, deadline - time.monotonic()))
            self._stream.sendall(data)
        except OSError as fault:
            self.end(ConnectionLost(f"the connection to {self._name} failed in the middle of a request: {fault}"))
        finally:
            self._writing.release()

    def finish(self, seconds: float) -> None:
        """Says that nothing more is asked, and waits so long for the peer to end the connection."""
        try:
            self._stream.shutdown(socket.SHUT_WR)
        except OSError:
            return  # it has ended
        if threading.current_thread() is not self._reader:
            self._reader.join(seconds)

    def end(self, fault: ReplyLost) -> None:
        """Ends the connection. All requests that wait for their replies fail with this."""
        with self._guard:
            if self._fault is not None:
                return
            self._fault = fault
            waiting, self._waiting = self._waiting, {}
        try:
            self._stream.shutdown(socket.SHUT_RDWR)
        except OSError:
            pass  # the peer has ended it already
        for one in waiting.values():
            one.reply.set_exception(type(fault)(str(fault)))

    def _read(self) -> None:
        reader, next_look = FrameReader(), 0.0
        try:
            with selectors.DefaultSelector() as selector:
                selector.register(self._stream, selectors.EVENT_READ)
                while self._fault is None:
                    if selector.select(TICK):
                        self._hear(reader)
                    if time.monotonic() >= next_look:
                        self._expire()
                        next_look = time.monotonic() + TICK
        except ReplyLost as fault:
            self.end(fault)
        except Exception as fault:
            self.end(ConnectionLost(f"the connection to {self._name} failed: {fault}"))
        finally:
            with self._writing:  # nobody writes to a number that may be another file's by then
                self._stream.close()

    def _hear(self, reader: FrameReader) -> None:
        piece = self._stream.recv(1 << 18)
        if not piece:
            where = f" in the middle of a reply, after {reader.missing}" if reader.missing else ""
            raise ConnectionLost(f"{self._name} ended the connection{where}")
        self._heard_at = time.monotonic()
        for frame in reader.feed(piece):
            self.frame_at = self._heard_at
            if not frame.is_reply:
                self._on_request(frame)
                continue
            with self._guard:
                waiting = self._waiting.pop(frame.opaque, None)
            if waiting is not None:  # else nobody waits for it any more
                waiting.reply.set_result(frame)

    def _expire(self) -> None:
        """Fails the requests whose time is over. A peer that sent nothing since one of them was made is gone."""
        now = time.monotonic()
        with self._guard:
            overdue = {number: one for number, one in self._waiting.items() if one.deadline <= now}
            for number in overdue:
                del self._waiting[number]
        for one in overdue.values():
            one.reply.set_exception(RequestTimeout(f"{self._name} didn't reply in {now - one.sent_at:.1f} s"))
        if any(one.sent_at > self._heard_at for one in overdue.values()):
            self.end(ConnectionLost(f"{self._name} has said nothing for {now - self._heard_at:.1f} s"))


class Connection:
    """A connection to the broker at `HOST:PORT`, made at the first request and again whenever it was lost.

    `pipe:COMMAND`, as `pipe:mq_broker pipe`, is a broker that this program runs itself, from the first request until
    `close`; it is asked over its standard input and output, and run again where it has ended.

    `timeout` is how many seconds a request may take by default, and `form` how its header is spelled.
    """

    def __init__(self, broker: Optional[str] = None, *, timeout: float = 3.0, form: Form = Form.JSON) -> None:
        self.address = broker if broker is not None else default_broker()
        self._child = Child(self.address[len(PIPE):]) if self.address.startswith(PIPE) else None
        self._host, self._port = parse_address(self.address) if self._child is None else ("", 0)
        self.timeout, self.form = timeout, form
        self._numbers = itertools.count(1)
        self._handlers: Dict[int, Handler] = {}
        self._making = threading.Lock()  # of a link, and of what follows
        self._link: Optional[_Link] = None
        self._is_closed = False
        self._made, self._heard_at = 0, 0.0
        self._pause, self._next_try = 0.0, 0.0
        self._fault: Optional[BaseException] = None

    @property
    def times_made(self) -> int:
        """How often the connection was made. When it rises, the broker may have forgotten this client's locks."""
        return self._made

    @property
    def is_pipe(self) -> bool:
        """Whether the broker is run by this program. Such a one does nothing by itself between two requests."""
        return self._child is not None

    @property
    def heard_at(self) -> float:
        """When the last reply or request came, by `time.monotonic`; 0 where none has."""
        link = self._link
        return max(self._heard_at, link.frame_at if link is not None else 0.0)

    def on_request(self, code: RequestCode, handler: Handler) -> None:
        """Calls this with each request of that code that the broker makes, by the thread that reads: it mustn't wait.

        There is one handler for a code: the last one given.
        """
        self._handlers[code] = handler

    def request(self, code: RequestCode, fields: Mapping[str, str], body: bytes = b"", *,
                timeout: Optional[float] = None, is_repeatable: bool = False) -> Frame:
        """The reply to a request, whatever its code.

        Where the connection is lost a request that `is_repeatable` is sent again until its time is over.
        """
        deadline = time.monotonic() + (self.timeout if timeout is None else timeout)
        while True:
            reply = self._ask(code, fields, body, deadline)
            try:
                return reply.result(max(0.0, deadline - time.monotonic()))
            except concurrent.futures.TimeoutError:
                raise RequestTimeout(f"{self.address} didn't reply in time") from None
            except ConnectionLost:
                if not is_repeatable or time.monotonic() >= deadline:
                    raise

    def request_async(self, code: RequestCode, fields: Mapping[str, str], body: bytes = b"", *,
                      timeout: Optional[float] = None) -> Future[Frame]:
        """The same without waiting for the reply. Callbacks of the future are called by the thread that reads.

        It does wait while the connection has to be made or takes no more bytes, and raises what `request` raises then.
        """
        return self._ask(code, fields, body, time.monotonic() + (self.timeout if timeout is None else timeout))

    def request_one_way(self, code: RequestCode, fields: Mapping[str, str], body: bytes = b"") -> None:
        """A request that isn't answered. Nothing says whether it arrived."""
        deadline = time.monotonic() + self.timeout
        frame = Frame(code, self._number(), fields, body, flag=ONE_WAY_FLAG, form=self.form)
        while True:
            try:
                return self._connected(deadline).write(frame.encode(), deadline)
            except _Ended:
                continue

    def close(self) -> None:
        """Ends the connection for good. Requests that wait for their replies get `ConnectionLost`.

        A broker that this program runs is given the timeout to answer what it was asked, and to end.
        """
        self._is_closed = True
        with self._making:
            if self._link is not None and self._child is not None:
                self._link.finish(self.timeout)
            if self._link is not None:
                self._link.end(ConnectionLost("this program closed the connection"))
            if self._child is not None:
                self._child.end(self.timeout)

    def __enter__(self) -> Connection:
        return self

    def __exit__(self, kind: Optional[Type[BaseException]], fault: Optional[BaseException],
                 trace: Optional[TracebackType]) -> None:
        self.close()

    def _number(self) -> int:
        return next(self._numbers) & 0x7FFFFFFF

    def _ask(self, code: RequestCode, fields: Mapping[str, str], body: bytes, deadline: float) -> Future[Frame]:
        while True:
            try:
                frame = Frame(code, self._number(), fields, body, form=self.form)
                return self._connected(deadline).ask(frame, deadline)
            except _Ended:
                continue  # nothing was written, and `_connected` ends at the deadline

    def _connected(self, deadline: float) -> _Link:
        """A link that was there a moment ago. `BrokerUnavailable` where none can be made in time.

        That is the connection's own timeout also for a request that may take longer, as a pull that the broker holds.
        """
        deadline = min(deadline, time.monotonic() + self.timeout)
        while True:
            if self._is_closed:
                raise ConnectionClosed(f"the connection to {self.address} was closed by this program")
            link = self._link
            now = time.monotonic()
            if link is not None and not link.is_ended and now < deadline:
                return link
            if now >= deadline or not self._making.acquire(timeout=deadline - now):
                why = self._fault or "no connection in time"
                raise BrokerUnavailable(f"no broker at {self.address}: {why}") from self._fault
            try:
                pause = self._make(deadline)
            finally:
                self._making.release()
            time.sleep(min(pause, max(0.0, deadline - time.monotonic())))

    def _make(self, deadline: float) -> float:
        """Makes a link if there is none and the last try was long enough ago, else how many seconds to wait."""
        now, old = time.monotonic(), self._link
        if self._is_closed or (old is not None and not old.is_ended):
            return 0.0
        if old is not None:
            if old.frame_at > 0:
                self._heard_at, self._pause, self._next_try = old.frame_at, 0.0, 0.0
            else:
                self._wait_longer()
            self._link = None
        if self._next_try > now:
            return self._next_try - now
        try:
            stream = self._open(max(0.001, deadline - now))
        except OSError as fault:
            self._fault = fault
            return self._wait_longer()
        self._fault = None
        self._link = _Link(self.address, stream, self._handle)
        self._made += 1
        return 0.0

    def _open(self, timeout: float) -> socket.socket:
        return _connect(self._host, self._port, timeout) if self._child is None else self._child.start(timeout)

    def _wait_longer(self) -> float:
        self._pause = min(2.0, max(0.05, 2 * self._pause))
        pause = self._pause * random.uniform(0.75, 1.25)  # so that many clients don't come all at once
        self._next_try = time.monotonic() + pause
        return pause

    def _handle(self, request: Frame) -> None:
        handler = self._handlers.get(request.code)
        if handler is None:
            log.debug("%s asks for %s, which nobody handles", self.address, request.code)
            return
        try:
            handler(request)
        except Exception:  # a handler's fault mustn't end the reading
            log.exception("the handler of requests of code %s failed", request.code)


def _connect(host: str, port: int, timeout: float) -> socket.socket:
    stream = socket.create_connection((host, port), timeout)
    try:
        if stream.getsockname() == stream.getpeername():
            # where nobody listens at a port of its own range the system may connect a socket to itself
            raise ConnectionRefusedError("nobody listens")
        stream.setsockopt(socket.IPPROTO_TCP, socket.TCP_NODELAY, 1)
        stream.setsockopt(socket.SOL_SOCKET, socket.SO_KEEPALIVE, 1)
    except OSError:
        stream.close()
        raise
    return stream


def shared(connection: Union[Connection, str, None]) -> Tuple[Connection, bool]:
    """A connection, and whether it was made here and so has to be closed by whoever asked."""
    if isinstance(connection, Connection):
        return connection, False
    return Connection(connection), True


def fault_of(reply: Future[Frame]) -> Optional[ClientError]:
    """Why there is no reply, of a request that is over; None where there is one."""
    fault = reply.exception()
    if fault is None or isinstance(fault, ClientError):
        return fault
    raise fault
