#!/usr/bin/env python3
"""Speaks to the real program over TCP: checks/serve.py PROGRAM [OPTION...] [WORDS...].

Each check starts it in an empty folder of its own, as PROGRAM serve --host 127.0.0.1:PORT with a free port, or as PROGRAM WORDS...,
in which {port} stands for the port. Each check prints its name, and the first that fails ends it. Options:

--go-on      makes all checks, whichever fail
--only TEXT  makes those whose names have this text
--port N     the program listens on this port by itself
--forgets    the program doesn't open an old store: what wants that is left out
"""
import contextlib
import os
import random
import re
import resource
import shutil
import signal
import socket
import struct
import subprocess
import sys
import tempfile
import threading
import time

from wire import PROGRAM, commit, frame, number, pull, pulled, records, reply_of, send, stored

HERE = os.path.dirname(os.path.abspath(__file__))
WAIT = 10  # seconds until what has to come is missed


class Failed(Exception):
    pass


def want(holds, *said):
    if not holds:
        raise Failed(" ".join(str(word) for word in said))


def options(words):
    said = {"--go-on": False, "--only": "", "--port": None, "--forgets": False}
    while words and words[0] in said:
        takes = words[0] in ("--only", "--port")
        said[words[0]], words = words[1] if takes else True, words[1 + takes:]
    return said, words


SAID, WORDS = options(sys.argv[2:])
PORT, FORGETS = SAID["--port"] and int(SAID["--port"]), SAID["--forgets"]
IS_SERVE = not WORDS and PORT is None  # so that further words of `serve` may be given
FAULTS = []


class Skipped(Exception):
    pass


def check(name):
    def wrap(test):
        if SAID["--only"] not in name:
            return
        began = time.time()
        try:
            with tempfile.TemporaryDirectory() as folder:
                test(folder)
            print(f"ok: {name} ({time.time() - began:.1f} s)", flush=True)
        except Skipped as why:
            print(f"skipped, {why}: {name}", flush=True)
        except Exception as fault:
            print(f"FAILED: {name}: {fault if isinstance(fault, Failed) else repr(fault)}", flush=True)
            FAULTS.append(name)
            if not SAID["--go-on"]:
                sys.exit(1)
    return wrap


class Server:
    """The program in a folder, from the first link that it takes until it is killed."""

    def __init__(self, folder, *more, before=(), limits=(), names=None):
        self.port = PORT or free_port()
        words = [word.replace("{port}", str(self.port)) for word in WORDS]
        if IS_SERVE:
            words = ["serve", "--host", f"127.0.0.1:{self.port}"]
        self.child = subprocess.Popen([*before, PROGRAM, *words, *more], cwd=folder, stdin=subprocess.DEVNULL,
                                      env={**os.environ, **(names or {})}, preexec_fn=lambda: limit(limits))
        self.is_traced, self.is_killed, self.links = bool(before), False, []

    def __enter__(self):
        end = time.time() + WAIT
        while not self.is_heard():
            if self.child.poll() is not None:
                raise Failed(f"the program ended with status {self.child.returncode} before it took a link")
            if time.time() > end:
                self.kill()
                raise Failed(f"nobody listens on port {self.port} after {WAIT} s")
            time.sleep(0.01)
        return self

    def is_heard(self):
        """Whether somebody listens, seen without a link that would count."""
        with open("/proc/net/tcp") as table:
            return any(row.split()[1].endswith(":%04X" % self.port) and row.split()[3] == "0A" for row in table.readlines()[1:])

    def __exit__(self, _, fault, __):
        status = self.child.poll()
        ended = status is not None and not self.is_killed
        for link in self.links:
            link.close()
        self.kill()
        want(not ended, "the program ended by itself, with status", status, fault or "")

    def kill(self):
        self.is_killed = True
        if self.child.poll() is None:
            if self.is_traced:  # strace ends by itself once the program has
                with open(f"/proc/{self.child.pid}/task/{self.child.pid}/children") as file:
                    for pid in file.read().split():
                        os.kill(int(pid), signal.SIGKILL)
            else:
                self.child.kill()
        self.child.wait(WAIT)

    def link(self, **settings):
        link = Link(self.port, **settings)
        self.links.append(link)
        return link

    @contextlib.contextmanager
    def paused(self):
        """It finds at once all that is said meanwhile."""
        self.child.send_signal(signal.SIGSTOP)
        try:
            yield
            time.sleep(0.05)
        finally:
            self.child.send_signal(signal.SIGCONT)

    def seconds(self):
        """The processor time that it took."""
        with open(f"/proc/{self.child.pid}/stat") as file:
            fields = file.read().rpartition(")")[2].split()
        return (int(fields[11]) + int(fields[12])) / os.sysconf("SC_CLK_TCK")

    def descriptors(self):
        """How many descriptors it has open."""
        return len(os.listdir(f"/proc/{self.child.pid}/fd"))

    def memory(self):
        """Its memory in MiB."""
        with open(f"/proc/{self.child.pid}/statm") as file:
            return int(file.read().split()[1]) * os.sysconf("SC_PAGE_SIZE") >> 20


def limit(limits):
    signal.signal(signal.SIGXFSZ, signal.SIG_IGN)
    for what, most in limits:
        resource.setrlimit(what, (most, most))


def free_port():
    with socket.socket() as door:
        door.bind(("127.0.0.1", 0))
        return door.getsockname()[1]


class Link:
    def __init__(self, port, buffers=None):
        self.socket = socket.socket()
        if buffers:
            self.socket.setsockopt(socket.SOL_SOCKET, socket.SO_RCVBUF, buffers)
        self.socket.settimeout(WAIT)
        self.socket.connect(("127.0.0.1", port))
        self.socket.setsockopt(socket.IPPROTO_TCP, socket.TCP_NODELAY, 1)
        self.held = bytearray()

    def say(self, data):
        self.socket.sendall(data)

    def say_beside(self, data):
        """The same by a thread, for data whose replies have to be read meanwhile."""
        def run():
            try:
                self.say(data)
            except OSError:
                pass
        threading.Thread(target=run, daemon=True).start()

    def frame(self):
        """The next frame, or None at the end of the stream."""
        while len(self.held) < 4 or len(self.held) < 4 + int.from_bytes(self.held[:4], "big"):
            try:
                piece = self.socket.recv(1 << 20)
            except socket.timeout:
                raise Failed(f"nothing came for {WAIT} s, behind {len(self.held)} bytes of a reply") from None
            except ConnectionResetError:
                return None
            if not piece:
                want(not self.held, "the link ended inside a reply")
                return None
            self.held += piece
        size = 4 + int.from_bytes(self.held[:4], "big")
        data = bytes(self.held[:size])
        del self.held[:size]
        return data

    def hear(self):
        data = self.frame()
        want(data is not None, "the link was closed where a reply was due")
        return reply_of(data)

    def ask(self, data):
        self.say(data)
        return self.hear()

    def hear_end(self, what):
        """Nothing comes but the end."""
        data = self.frame()
        want(data is None, what, "is answered by", data and reply_of(data))

    def store(self, bodies, topic, opaque=0):
        """Sends these one after another, and has the offsets that were told."""
        told = [self.ask(send(opaque + k, body, topic=topic)) for k, body in enumerate(bodies)]
        for k, reply in enumerate(told):
            want(reply["code"] == 0 and reply["opaque"] == opaque + k, "a send is answered by", reply)
        return [int(reply["extFields"]["queueOffset"]) for reply in told]

    def pull_all(self, topic, count, binary=False):
        """The first records of a queue, once there are so many: what was answered may be seen a moment later."""
        found, end = [], time.time() + WAIT
        while len(found) < count:
            reply = self.ask(pull(7, topic, len(found), binary=binary))
            want(reply["binary"] == binary and reply["opaque"] == 7, "a pull is answered by", reply)
            if reply["code"] == 0:
                found += pulled(reply["body"])
                want(reply["extFields"]["nextBeginOffset"] == str(len(found)), "a pull goes on at", reply["extFields"])
            else:
                want(time.time() < end, f"only {len(found)} of {count} messages are pulled of {topic}, then", reply)
                time.sleep(0.005)
        want([r["queue_offset"] for r in found] == list(range(len(found))), "pulled offsets are", [r["queue_offset"] for r in found])
        return found

    def close(self):
        self.socket.close()

    def reset(self):
        self.socket.setsockopt(socket.SOL_SOCKET, socket.SO_LINGER, struct.pack("ii", 1, 0))
        self.close()


def is_served(server, topic):
    """A new link and its send are served."""
    link = server.link()
    link.store([b"other"], topic)
    link.close()


def read_back(link, topic, bodies):
    found = [r["body"] for r in link.pull_all(topic, len(bodies))]
    at = next((k for k, (have, body) in enumerate(zip(found, bodies)) if have != body), None)
    want(at is None and len(found) == len(bodies), f"{topic} has {len(found)} messages for {len(bodies)}, number {at} is another")


def beside(count, run):
    """Runs this for each number by a thread of its own. The first fault is this thread's."""
    faults = []

    def one(k):
        try:
            run(k)
        except Exception as fault:  # it is raised again below
            faults.append(fault)
    threads = [threading.Thread(target=one, args=(k,)) for k in range(count)]
    for thread in threads:
        thread.start()
    for thread in threads:
        thread.join()
    if faults:
        raise faults[0]


@check("sends of both codes and pulls are served in both forms, and their bodies come back")
def _(folder):
    with Server(folder) as server:
        link = server.link()
        for k, (binary, short) in enumerate([(False, False), (False, True), (True, False), (True, True)]):
            reply = link.ask(send(k, b"body %d" % k, topic="A", binary=binary, short=short, properties="KEYS\x01k%d\x02" % k))
            want((reply["binary"], reply["code"], reply["opaque"], reply["flag"]) == (binary, 0, k, 1), "a send is answered by", reply)
            want((reply["extFields"]["queueOffset"], reply["extFields"]["queueId"]) == (str(k), "0"), "a send is answered by", reply)
        for binary in (False, True):
            found = link.pull_all("A", 4, binary)
            want([r["body"] for r in found] == [b"body %d" % k for k in range(4)], "the bodies are", [r["body"] for r in found])
            want([r["props"] for r in found] == ["KEYS\x01k%d\x02" % k for k in range(4)], "the properties are others")
            reply = link.ask(pull(9, "A", 1, most=2, binary=binary))
            want([r["body"] for r in pulled(reply["body"])] == [b"body 1", b"body 2"], "a pull of 2 from offset 1 is answered by", reply)
            ext = {"maxOffset": "4", "minOffset": "0", "nextBeginOffset": "3", "suggestWhichBrokerId": "0"}
            want(reply["extFields"] == ext, "a pull has the fields", reply["extFields"])
            for at, code in ((4, 19), (5, 21)):
                reply = link.ask(pull(9, "A", at, binary=binary))
                want(reply["code"] == code and not reply["body"], f"a pull from offset {at} of 4 is answered by", reply)
            reply = link.ask(pull(9, "B", 0, binary=binary))
            want(reply["code"] == 17, "a pull of a topic that isn't known is answered by", reply)


@check("an unknown code is answered with 3, a request that wants no reply and a response not at all")
def _(folder):
    with Server(folder) as server:
        link = server.link()
        for k, code in enumerate((999, 320, 0, -5, 32767)):
            reply = link.ask(frame({"code": code, "opaque": k, "extFields": {}}, b"x" * k, binary=k % 2 == 1))
            want((reply["code"], reply.get("remark"), reply["opaque"]) == (3, f"code {code}", k), f"code {code} is answered by", reply)
        link.say(frame({"code": 999, "opaque": 1, "flag": 2}) + frame({"code": 999, "opaque": 2, "flag": 1}) + send(3, b"one way", flag=2))
        reply = link.ask(send(4, b"hi"))
        want(reply["opaque"] == 4 and reply["extFields"].get("queueOffset") == "1", "a send behind them is answered by", reply)
        read_back(link, "T", [b"one way", b"hi"])


@check("frames that are cut anywhere are served alike")
def _(folder):
    with Server(folder) as server:
        link = server.link()
        requests = [send(0, b"first", topic="A"), send(1, b"second", topic="A", binary=True, short=True), frame({"code": 999, "opaque": 2}),
                    pull(3, "A", 0, binary=True), send(4, b"", topic="A")]
        stream = b"".join(requests)
        rounds = 0

        def heard():
            told = [link.hear() for _ in requests]
            want([r["opaque"] for r in told] == list(range(5)), "the replies are", told)
            want([r["code"] for r in told[:3]] == [0, 0, 3] and told[4]["code"] == 0, "the replies are", told)
            offsets = [int(told[k]["extFields"]["queueOffset"]) for k in (0, 1, 4)]
            want(offsets == [3 * rounds, 3 * rounds + 1, 3 * rounds + 2], "the offsets are", offsets, "in round", rounds)

        for byte in stream:
            link.say(bytes([byte]))
        heard()
        for cut in range(1, len(stream), 3):
            rounds += 1
            link.say(stream[:cut])
            time.sleep(0.0005)
            link.say(stream[cut:])
            heard()
        read_back(link, "A", [b"first", b"second", b""] * (rounds + 1))


def mixed(count, topic, first=0):
    """Requests of several kinds, numbered from `first` on, the bodies that they store, and what is wanted of each reply."""
    data, bodies, wanted = [], [], []
    for k in range(count):
        opaque, binary, code, offset = first + k, k % 3 == 0, 0, None
        if k % 8 == 5:
            data.append(pull(opaque, topic + "none", 0, binary=binary))
            code = 17
        elif k % 8 == 6:
            data.append(frame({"code": 999, "opaque": opaque}, binary=binary))
            code = 3
        elif k % 8 == 7:
            data.append(pull(opaque, topic, 0, binary=binary))
            code = None
        else:
            offset = str(len(bodies))
            bodies.append(b"%d " % k + bytes([k % 256]) * (k * 7 % 600))
            data.append(send(opaque, bodies[-1], topic=topic, binary=binary, short=k % 2 == 0))
        wanted.append((topic, opaque, binary, code, offset))
    return data, bodies, wanted


def hear_mixed(link, wanted):
    for topic, opaque, binary, code, offset in wanted:
        reply = link.hear()
        want(reply["opaque"] == opaque, f"the reply of request {opaque} is that of", reply["opaque"])
        want(reply["binary"] == binary and code in (None, reply["code"]), f"request {opaque} is answered by", reply)
        want(reply["extFields"].get("queueOffset") == offset, f"request {opaque} has offset {offset} and is answered by", reply)
        found = [(r["topic"], r["queue_offset"]) for r in pulled(reply["body"])]
        want(found == [(topic, k) for k in range(len(found))], f"the pull {opaque} of {topic} has the messages", found)


@check("requests that come many at once on a link are answered in order, with the right number and offset")
def _(folder):
    with Server(folder) as server:
        for count in (64, 1000):
            link = server.link()
            data, bodies, wanted = mixed(count, f"A{count}")
            link.say_beside(b"".join(data))
            hear_mixed(link, wanted)
            read_back(link, f"A{count}", bodies)


@check("two thousand requests that come in one piece are all answered in order")
def _(folder):
    with Server(folder) as server:
        link = server.link()
        for turn in range(3):
            with server.paused():
                link.say(b"".join(frame({"code": 999, "opaque": k}, binary=True) for k in range(2000)))
            for k in range(2000):
                try:
                    reply = link.hear()
                except Failed as fault:
                    raise Failed(f"of 2,000 requests {k} were answered, then {fault}") from None
                want((reply["opaque"], reply["code"]) == (k, 3), f"request {k} is answered by", reply)


@check("five thousand sends that come at once, more than may wait, are all answered in order")
def _(folder):
    with Server(folder) as server:
        link = server.link()
        bodies = [b"%d" % k for k in range(5000)]
        link.say_beside(b"".join(send(k, body, topic="A", binary=True, short=True) for k, body in enumerate(bodies)))
        for k in range(5000):
            try:
                reply = link.hear()
            except Failed as fault:
                raise Failed(f"of 5,000 requests {k} were answered, then {fault}") from None
            told = (reply["opaque"], reply["code"], reply["extFields"].get("queueOffset"))
            want(told == (k, 0, str(k)), f"send {k} is answered by", reply)
        read_back(link, "A", bodies)


@check("sixteen and sixty-four links are served at once, each in its order")
def _(folder):
    with Server(folder) as server:
        for links in (16, 64):
            def one(k):
                link = server.link()
                data, bodies, wanted = mixed(48, f"L{links}_{k}", k * 1000)
                for at in range(0, 48, 6):
                    link.say(b"".join(data[at:at + 6]))
                    hear_mixed(link, wanted[at:at + 6])
                read_back(link, f"L{links}_{k}", bodies)
            beside(links, one)

            def into_one(k):
                server.link().store([b"%d %d" % (k, i) for i in range(10)], f"all{links}")
            beside(links, into_one)
            found = [r["body"].split() for r in server.link().pull_all(f"all{links}", links * 10)]
            for k in range(links):
                order = [int(i) for link, i in found if int(link) == k]
                want(order == list(range(10)), f"of link {k} the messages of one topic stand as", order)


@check("a link that ends its sending gets all its replies and then the end")
def _(folder):
    with Server(folder) as server:
        for k, is_paused in enumerate([True] * 4 + [False] * 100):
            link = server.link()
            link.store([b"first"], "A")
            is_send = k % 2 == 0
            with server.paused() if is_paused else contextlib.nullcontext():
                link.say(send(1, b"last", topic="A") if is_send else frame({"code": 999, "opaque": 1}))
                link.socket.shutdown(socket.SHUT_WR)
            reply = link.hear()
            want((reply["opaque"], reply["code"]) == (1, 0 if is_send else 3), "the last request is answered by", reply)
            try:
                link.hear_end("the end of sending")
            except Failed as fault:
                raise Failed(f"where the end came {'with' if is_paused else 'behind'} the last request, behind its reply {fault}") from None
            link.close()


@check("links that die inside a frame, or with replies on their way, disturb nobody")
def _(folder):
    whole = send(0, b"x" * 3000, topic="half")
    with Server(folder) as server:
        steady, bodies = server.link(), []
        for k in range(60):
            link = server.link()
            link.say(whole[:(k * 53) % len(whole)] if k % 3 else b"".join(send(i, b"gone", topic="gone") for i in range(20)))
            if k % 2:
                link.reset()
            else:
                link.close()
            bodies.append(b"%d" % k)
            want(steady.store(bodies[-1:], "A") == [k], "the steady link's offset is another")
        read_back(steady, "A", bodies)
        reply = steady.ask(pull(1, "half", 0))
        want(reply["code"] == 17, "a send of which only a part came is seen:", reply["code"], reply["extFields"])


BAD = {
    "a length of 3": number(3, 4),
    "a length past 16 MiB": number((1 << 24) + 1, 4),
    "a negative length": b"\xff\xff\xff\xff",
    "a header longer than its frame": number(104, 4) + b"\0" + number(101, 3) + b"{" * 100,
    "a header of the greatest length in a short frame": number(8, 4) + b"\0\xff\xff\xff" + b"{}  ",
    "a third form of header": number(104, 4) + b"\2" + number(100, 3) + b"{" * 100,
    "a header that is no JSON": number(14, 4) + b"\0" + number(10, 3) + b'{"code":10',
    "a header without a code": number(17, 4) + b"\0" + number(13, 3) + b'{"opaque": 7}',
    "a binary header whose pairs lie about their length": number(25, 4) + b"\1" + number(21, 3) + bytes(17) + number(99, 4),
    "another protocol": b"GET / HTTP/1.1\r\nHost: 127.0.0.1\r\n\r\n",
    "random bytes": b"\xfe" + random.Random(20261128).randbytes(4000),
}


@check("a link that says no frame is closed behind the replies that it is owed, and others go on")
def _(folder):
    with Server(folder) as server:
        steady, count = server.link(), 0
        for name, data in BAD.items():
            link = server.link()
            try:
                link.say(data)
                link.hear_end(name)
                link = server.link()
                link.say(send(5, b"before", topic="before") + data)
                reply = link.hear()
                want(reply["opaque"] == 5 and reply["code"] == 0, "the send before it is answered by", reply)
                link.hear_end(name)
            except Failed as fault:
                raise Failed(f"{name}: {fault}") from None
            want(steady.store([b"steady"], "A") == [count], "another link is disturbed by", name)
            count += 1
        read_back(steady, "before", [b"before"] * count)


@check("a connection that says no frame after many requests gets all their replies and the end, however slowly it reads")
def _(folder):
    with Server(folder) as server:
        steady = server.link()
        body = b"y" * 32000
        steady.store([body] * 8, "big")
        steady.pull_all("big", 8)
        rest = random.Random(5).randbytes(300_000)
        for name, data in BAD.items():
            slow = server.link(buffers=1 << 14)
            slow.say(b"".join(pull(k, "big", 0) for k in range(4)) + data)
            time.sleep(0.3)  # its replies are on their way
            slow.say_beside(rest)
            time.sleep(0.1)
            for k in range(4):
                reply = slow.hear()
                want(reply["code"] == 0 and len(pulled(reply["body"])) == 8, f"{name}: pull {k} before it is answered by", reply["code"])
            try:
                want(slow.socket.recv(1) == b"", name, "is answered")
            except ConnectionResetError:
                raise Failed(f"{name}: the connection is reset") from None
            slow.close()
        is_served(server, "A")


@check("a connection that says no frame is closed within seconds, whether it is quiet or says more and more, and costs no time")
def _(folder):
    with Server(folder) as server:
        is_served(server, "A")
        time.sleep(0.2)
        open_before = server.descriptors()
        quiet = [server.link() for _ in range(8)]
        for link in quiet:
            link.say(b"GET / HTTP/1.1\r\n\r\n")
            link.hear_end("another protocol")
        took = server.seconds()
        end = time.time() + WAIT
        while server.descriptors() > open_before:
            want(time.time() < end, f"{server.descriptors() - open_before} connections are open {WAIT} s after they said no frame")
            time.sleep(0.1)
        want(server.seconds() - took < 0.3, f"to wait for them took {server.seconds() - took:.2f} s of processor time")
        link = server.link()
        began, said = time.time(), 0
        try:
            while time.time() < began + WAIT:
                said += link.socket.send(b"\xff" * 65536)
        except OSError:  # the connection is closed
            pass
        want(said < 1 << 26, f"a connection that said no frame said {said} bytes more")
        is_served(server, "A")


@check("a peer that vanishes is probed: each connection has its keep-alive timer")
def _(folder):
    if shutil.which("ss") is None:
        raise Skipped("there is no ss")
    with Server(folder) as server:
        links = [server.link() for _ in range(3)]
        for link in links:
            link.store([b"here"], "A")
        time.sleep(0.5)  # until nothing more has to be acknowledged
        table = subprocess.run(["ss", "-Htno", "state", "established", f"( sport = :{server.port} )"], capture_output=True, text=True,
                               timeout=WAIT).stdout.splitlines()
        want(len(table) == 3, "the server has other connections than three:", *table)
        for row in table:
            timer = re.search(r"timer:\(keepalive,(?:(\d+)min)?(?:([\d.]+)sec)?", row)
            want(timer, "a connection has no keep-alive timer:", row)
            seconds = 60 * int(timer[1] or 0) + float(timer[2] or 0)
            want(50 <= seconds <= 60, "its next probe comes in", seconds, "seconds")


@check("a frame of 16 MiB is read whole and one byte more is not; a message of 4 MiB comes back; others are served meanwhile")
def _(folder):
    with Server(folder) as server:
        big, other = server.link(), server.link()
        short = len(send(1, b"", topic="A")) - 4
        data = send(1, b"x" * ((1 << 24) - short), topic="A")
        want(len(data) == 4 + (1 << 24), "the frame of the check is", len(data))
        big.say(data[:1 << 23])
        want(other.store([b"meanwhile"], "B") == [0], "another link is disturbed")
        big.say_beside(data[1 << 23:] + send(2, b"behind", topic="A"))
        reply = big.hear()
        want((reply["code"], reply.get("remark"), reply["opaque"]) == (13, "body", 1), "a body of 16 MiB is answered by", reply)
        reply = big.hear()
        want((reply["code"], reply["opaque"]) == (0, 2), "the send behind it is answered by", reply)
        body = random.Random(7).randbytes(1 << 22)
        big.say_beside(send(3, body, topic="A"))
        reply = big.hear()
        want(reply["code"] == 0, "a body of 4 MiB is answered by", reply)
        read_back(other, "A", [b"behind", body])
        longer = server.link()
        longer.say_beside(number((1 << 24) + 1, 4) + data[4:])
        longer.hear_end("a frame of one byte more than 16 MiB")


@check("a client that never reads its replies costs others nothing and little memory, and finds all replies once it reads")
def _(folder):
    with Server(folder) as server:
        other, mute = server.link(), server.link(buffers=1 << 16)
        body = b"y" * 32000
        other.store([body] * 8, "big")
        other.pull_all("big", 8)
        before, asked = server.memory(), 400
        mute.say_beside(b"".join(pull(k, "big", 0) for k in range(asked)))
        slowest = most = 0
        for k in range(50):
            began = time.time()
            is_served(server, "A")
            slowest, most = max(slowest, time.time() - began), max(most, server.memory() - before)
            time.sleep(0.02)
        want(most < 64 and slowest < 3, f"for {asked} pulls of 250 KiB whose replies nobody reads it took {most} MiB, "
             f"and beside it a send took up to {slowest:.1f} s")
        for k in range(asked):
            reply = mute.hear()
            want(reply["opaque"] == k and len(pulled(reply["body"])) == 8, f"pull {k} is answered by", reply["opaque"], reply["code"])


@check("links that wait take no processor time")
def _(folder):
    with Server(folder) as server:
        for k in range(30):
            link = server.link()
            if k % 3 == 1:
                link.say(send(1, b"x" * 100)[:50])
            elif k % 3 == 2:
                link.store([b"then silence"], "A")
        body = b"y" * 32000
        link.store([body] * 8, "big")
        link.pull_all("big", 8)
        mute = server.link(buffers=4096)
        mute.say(b"".join(pull(k, "big", 0) for k in range(60)))
        end, spent = time.time() + WAIT, 1
        while spent >= 0.05:
            want(time.time() < end, f"{WAIT} s after the last request it still takes {spent:.2f} s of processor time in half a second")
            before = server.seconds()
            time.sleep(0.5)
            spent = server.seconds() - before


def load(server, chance, topic, told, stop):
    """Sends with a window until the program dies, and notes what was answered with 0."""
    link, sent, opaque, first = server.link(), {}, 0, chance.randrange(1 << 30)
    try:
        while not stop.is_set():
            while len(sent) < 8:
                opaque += 1
                sent[opaque] = b"%s %d %d " % (topic.encode(), first, opaque) + chance.randbytes(chance.randrange(1200))
                link.say(send(opaque, sent[opaque], topic=topic, binary=opaque % 2 == 1))
            data = link.frame()
            if data is None:
                return
            reply = reply_of(data)
            if reply["code"] == 0:
                ext = reply["extFields"]
                told.append((int(ext["queueOffset"]), int(ext["msgId"][16:], 16), sent.pop(reply["opaque"])))
    except (OSError, Failed):
        return


@check("killed under load and started again, it has every message that was answered, at its place and offset")
def _(folder):
    chance = random.Random(20261128)
    topics = [f"K{k}" for k in range(16)]
    known = {topic: [] for topic in topics}
    more = ("--segment", "262144") if IS_SERVE else ()
    for turn in range(1 if FORGETS else 4):
        with Server(folder, *more) as server:
            stop = threading.Event()
            threads = [threading.Thread(target=load, args=(server, random.Random(turn * 100 + k), topic, known[topic], stop))
                       for k, topic in enumerate(topics)]
            for thread in threads:
                thread.start()
            time.sleep(0.5 + chance.random())
            want(server.child.poll() is None, "it ended under load, with status", server.child.poll())
            server.kill()
            stop.set()
            for thread in threads:
                thread.join()
    count = sum(len(told) for told in known.values())
    want(count > 100, f"only {count} messages were answered")
    stored = {r["place"]: r for r in records(folder, whole=False)}
    for topic, told in known.items():
        for offset, place, body in told:
            r = stored.get(place)
            want(r is not None and (r["body"], r["queue_offset"], r["topic"]) == (body, offset, topic),
                 f"of {count} answered messages the one at offset {offset} of {topic} isn't in the log at place {place}")
    if FORGETS:
        return
    with Server(folder, *more) as server:
        for topic, told in known.items():
            if told:
                found = server.link().pull_all(topic, 1 + max(offset for offset, _, _ in told))
                for offset, place, body in told:
                    want((found[offset]["body"], found[offset]["place"]) == (body, place), f"offset {offset} of {topic} is another message")


def kept_texts(folder):
    """The texts of the two kept files, None where one is absent."""
    paths = [os.path.join(folder, "store", "config", name) for name in ("consumerOffset.json", "topics.json")]
    return [open(path, "rb").read() if os.path.exists(path) else None for path in paths]


def texts_with(offset):
    return [b'{"offsetTable":{"T@G":{"0":%d}}}' % offset, b'{"topicConfigTable":{"T":{"queues":4}}}']


@check("a stored offset and a new topic are kept a few seconds later without a further request, and outlive kill -9 and an end")
def _(folder):
    if FORGETS or not IS_SERVE:
        raise Skipped("it isn't this program's")
    with Server(folder) as server:
        link = server.link()
        link.store([b"0", b"1", b"2"], "T")
        link.pull_all("T", 3)
        want(link.ask(commit(3, 2))["code"] == 0, "the offset isn't stored")
        end = time.time() + 7
        while kept_texts(folder) != texts_with(2):
            want(time.time() < end, "seven seconds later the kept files are", kept_texts(folder))
            time.sleep(0.05)
        server.kill()
    with Server(folder, "--connections", "1") as server:
        link = server.link()
        reply = link.ask(stored(0))
        want((reply["code"], reply["extFields"].get("offset")) == (0, "2"), "once it was started again the offset is", reply)
        want(link.ask(commit(1, 3))["code"] == 0, "the offset isn't stored")
        link.close()
        want(server.child.wait(WAIT) == 0, "it ended with status", server.child.returncode)
        server.kill()
    want(kept_texts(folder) == texts_with(3), "at its end the kept files are", kept_texts(folder))


@check("a kept file that isn't of its form is status 8, and one that can't be replaced ends nobody and is status 10 at the end")
def _(folder):
    if FORGETS or not IS_SERVE:
        raise Skipped("it isn't this program's")
    with Server(folder) as server:
        server.link().store([b"0"], "T")
    log, path = records(folder), os.path.join(folder, "store", "config", "topics.json")
    with open(path, "wb") as file:
        file.write(b'{"topicConfigTable": {}}')
    ended = subprocess.run([PROGRAM, "serve", "--host", f"127.0.0.1:{free_port()}"], cwd=folder, stdin=subprocess.DEVNULL, timeout=WAIT)
    want(ended.returncode == 8 and kept_texts(folder) == [None, b'{"topicConfigTable": {}}'] and records(folder) == log,
         "it ended with status", ended.returncode, "and the kept files are", kept_texts(folder))
    os.remove(path)
    with Server(folder, "--connections", "1") as server:
        os.mkdir(path)  # no text is put in its place
        link = server.link()
        link.store([b"1"], "T")
        link.close()
        want(server.child.wait(WAIT) == 10, "it ended with status", server.child.returncode)
        server.kill()


@check("a full disk is told with code 10; what was answered before is pulled still, and stands")
def _(folder):
    with Server(folder, limits=[(resource.RLIMIT_FSIZE, 65536)]) as server:
        link, bodies, refused = server.link(), [], 0
        for k in range(150):
            body = b"%d " % k + b"x" * 900
            reply = link.ask(send(k, body, topic="A"))
            if k == 0 and reply["code"] == 10:
                bodies.append(body)  # the zeros ahead found no room: the next turn writes the record without them
            elif reply["code"] == 0:
                want(not refused, "a send is answered with 0 behind one that the disk didn't take")
                bodies.append(body)
            else:
                refused += 1
                told = (reply["code"], reply.get("remark", "").split(" ")[0])
                want(told in ((10, "flush"), (1, "disk")), "a send that the disk doesn't take is answered by", reply)
        want(len(bodies) > 30 and refused, f"{len(bodies)} sends are answered with 0, and {refused} are refused")
        read_back(link, "A", bodies)
        server.kill()
    want([r["body"] for r in records(folder, whole=False)][:len(bodies)] == bodies, "the log has other messages")


def send_big(server, count):
    """Sends a message of 4 MiB from each of so many links at once, and has their replies: so many that not all may be pending."""
    replies, body = [None] * count, b"x" * (1 << 22)

    def one(k):
        link = server.link()
        link.say(send(k, body, topic="A"))
        replies[k] = link.hear()
    beside(count, one)
    return replies


@check("sends for which there is no room wait until a slow disk has made some, and are all answered with 0, each once")
def _(folder):
    library = os.path.join(folder, "slow_sync.so")
    if not shutil.which("cc"):
        raise Skipped("it wants a C compiler")
    subprocess.run(["cc", "-shared", "-fPIC", "-O1", "-o", library, os.path.join(HERE, "slow_sync.c")], check=True)
    with Server(folder, names={"LD_PRELOAD": library, "SLOW_SYNC": "400"}) as server:
        replies = send_big(server, 40)
        want([reply["code"] for reply in replies] == [0] * 40, "they are answered by",
             [(reply["code"], reply.get("remark")) for reply in replies if reply["code"]])
        offsets = sorted(int(reply["extFields"]["queueOffset"]) for reply in replies)
        want(offsets == list(range(40)), "their offsets are", offsets)


@check("sends for which there is no room are refused with the disk's failure where the disk takes nothing more")
def _(folder):
    with Server(folder, limits=[(resource.RLIMIT_FSIZE, 65536)]) as server:
        replies = send_big(server, 40)
        told = {(reply["code"], reply.get("remark", "").split(" ")[0]) for reply in replies}
        want(told == {(10, "flush"), (1, "disk")}, "they are answered by", told)
        want(all(int(reply["remark"].split(" ")[1]) > 0 for reply in replies), "the failures' numbers are",
             [reply["remark"] for reply in replies])


@check("clients for whom there was no descriptor are let in once others have left")
def _(folder):
    with Server(folder, limits=[(resource.RLIMIT_NOFILE, 40)]) as server:
        links = [server.link() for _ in range(60)]
        for k, link in enumerate(links):
            link.say(frame({"code": 999, "opaque": k}))
        time.sleep(0.2)
        for k, link in enumerate(links):
            try:
                want(link.hear()["opaque"] == k, "the reply is another")
            except Failed as fault:
                raise Failed(f"link {k} of 60, where 40 descriptors may be open: {fault}") from None
            link.close()
        is_served(server, "A")


@check("clients past --links wait at the door, and are let in once others have left")
def _(folder):
    if not IS_SERVE:
        raise Skipped("it takes no words of serve")
    with Server(folder, "--links", "3") as server:
        links = [server.link() for _ in range(8)]
        for k, link in enumerate(links):
            link.say(send(k, b"%d" % k))
        for k, link in enumerate(links):
            try:
                want(link.hear()["opaque"] == k, "the reply is another")
            except Failed as fault:
                raise Failed(f"link {k} of 8: {fault}") from None
            if k < 2:
                links[k + 3].socket.settimeout(0.2)
                with contextlib.suppress(Failed):
                    links[k + 3].frame()
                    raise AssertionError(f"link {k + 3} is served while 3 others are open")
                links[k + 3].socket.settimeout(WAIT)
            link.close()


@check("many links that announce 16 MiB and say little take little memory")
def _(folder):
    with Server(folder) as server:
        is_served(server, "A")
        before = server.memory()
        for _ in range(64):
            server.link().say(number(1 << 24, 4) + b"\0" + number(200, 3) + b"{")
        is_served(server, "A")
        want(server.memory() - before < 64, f"64 links that said 9 bytes each take {server.memory() - before} MiB")


@check("wrong words, a store in use and a port in use have their statuses")
def _(folder):
    if not IS_SERVE:
        raise Skipped("it takes no words of serve")

    def status(*words):
        try:
            return subprocess.run([PROGRAM, *words], cwd=folder, stdin=subprocess.DEVNULL, timeout=WAIT).returncode
        except subprocess.TimeoutExpired:
            raise Failed(f"with {' '.join(words)} it runs on") from None
    for words in (("serve", "x"), ("serve", "--host"), ("serve", "--host", "localhost"), ("serve", "--host", "127.0.0.1"),
                  ("serve", "--connections", "0"), ("serve", "--segment", "4095"), ("serve", "--flush", "often"),
                  ("serve", "--flush", "sync", "--flush", "sync")):
        want(status(*words) == 1, " ".join(words), "is answered by another status than 1")
    with Server(folder) as server:
        want(status("serve", "--host", f"127.0.0.1:{free_port()}") == 5, "a store in use is answered by another status than 5")
        is_served(server, "A")
        with tempfile.TemporaryDirectory() as other:
            folder = other
            want(status("serve", "--host", f"127.0.0.1:{server.port}") == 10, "a port in use is answered by another status than 10")
        is_served(server, "A")


@check("where threads can't be started it ends with status 9 before it listens or makes a store, and else it serves")
def _(folder):
    if not IS_SERVE:
        raise Skipped("it takes no words of serve")
    if os.getuid() != 0:
        raise Skipped("only root may run it as a user of its own")
    os.chmod(folder, 0o777)
    user = random.randrange(1 << 20, 1 << 30)

    def run_by_user(tasks):
        def begin():
            os.setgroups([])
            os.setgid(user)
            os.setuid(user)
            resource.setrlimit(resource.RLIMIT_NPROC, (tasks, tasks))
        words = ["serve", "--host", f"127.0.0.1:{free_port()}", "--connections", "1"]
        try:
            return subprocess.run([PROGRAM, *words], cwd=folder, stdin=subprocess.DEVNULL, preexec_fn=begin, timeout=2).returncode
        except PermissionError:
            raise Skipped("the program may not be run by others") from None
        except subprocess.TimeoutExpired:
            return "none: it runs"
    for tasks in (1, 2, 3):
        status = run_by_user(tasks)
        want(status == 9, f"where {tasks - 1} threads more can be started its status is", status)
        want(not os.path.exists(os.path.join(folder, "store", "format")), "it made a store")
    want(run_by_user(64) == "none: it runs", "where threads can be started it ends")


@check("with --flush async all that was answered stands once the last link has ended")
def _(folder):
    if not IS_SERVE:
        raise Skipped("it takes no words of serve")
    server = Server(folder, "--flush", "async", "--connections", "1").__enter__()
    try:
        link = server.link()
        link.say(b"".join(send(k, b"%d" % k) for k in range(200)))
        want([link.hear()["extFields"].get("queueOffset") for _ in range(200)] == [str(k) for k in range(200)], "offsets are others")
        link.close()
        want(server.child.wait(WAIT) == 0, "its status is", server.child.returncode)
        want([r["body"] for r in records(folder)] == [b"%d" % k for k in range(200)], "its log is another")
    except subprocess.TimeoutExpired:
        raise Failed(f"{WAIT} s after its link has ended it runs") from None
    finally:
        server.kill()


def follow(trace):
    """How often the log was synced, how many sends were answered with 0, and which of them before the sync of their record.

    A send counts once, by the place that its answer names: what a link did not take at first is written again. Zeros that are written
    ahead don't count as written: the records are put there later.
    """
    written, synced, syncs, answers, early, open_calls = {}, {}, 0, set(), [], {}
    call = re.compile(r"(\d+) +(?:<\.\.\. )?(\w+)(?:\((?:\d+<(.*?)>)?| resumed>)")
    for line in open(trace, errors="replace"):
        found = call.match(line)
        if not found:
            continue
        pid, name, path = found.groups()
        if " resumed>" in line[:60]:
            name, path, end, was = open_calls.pop(pid)
        else:
            base = int(path.rpartition("/")[2]) if path and "/commitlog/" in path else None
            end, was = None, dict(written)
            if name == "pwrite64" and base is not None and not re.search(r', "(?:\\0)+", ', line):
                size, at = re.search(r", (\d+), (\d+)(?:\) += |( <unfinished))", line).groups()[:2]
                end = (base, base + int(at) + int(size))
            if name in ("write", "writev", "sendto", "sendmsg"):
                for place in re.findall(r'msgId(?:\\0\\0\\0 |\\":\\")[0-9A-F]{16}([0-9A-F]{16})', line):
                    at = int(place, 16)
                    answers.add(at)
                    if not any(base <= at < to for base, to in synced.items()):
                        early.append((at, dict(synced)))
            if line.rstrip().endswith("<unfinished ...>"):
                open_calls[pid] = (name, path, end, was)
                continue
        if path is None or "/commitlog/" not in path or " = -1 " in line:
            continue
        if name == "pwrite64" and end is not None:
            written[end[0]] = max(written.get(end[0], 0), end[1])
        elif name in ("fdatasync", "fsync"):
            base = path.rpartition("/")[2]
            if base.isdigit():
                syncs += 1
                synced[int(base)] = max(synced.get(int(base), 0), was.get(int(base), 0))
    return syncs, len(answers), early


@check("under load it syncs less often than it answers sends, and each answer comes behind the sync of its record")
def _(folder):
    if shutil.which("strace") is None:
        raise Skipped("there is no strace")
    trace, sends = os.path.join(folder, "trace"), 16 * 40
    before = ("strace", "-f", "-y", "-s", "1000000", "-o", trace, "-e", "trace=pwrite64,fdatasync,fsync,write,writev,sendto,sendmsg")
    try:
        with Server(folder, before=before) as server:
            def one(k):
                link = server.link()
                for at in range(0, 40, 4):
                    link.say(b"".join(send(i, b"%d" % i, topic=f"S{k}", binary=k % 2 == 1) for i in range(at, at + 4)))
                    want([link.hear()["code"] for _ in range(4)] == [0] * 4, "a send isn't answered with 0")
            beside(16, one)
    except Failed as fault:
        if os.path.exists(trace) and os.path.getsize(trace):
            raise
        raise Skipped(f"strace is refused ({fault})") from None
    syncs, answers, early = follow(trace)
    want(answers == sends, f"the trace has {answers} answers of {sends} sends")
    want(not early, f"{len(early)} answers come before the sync of their record; the first one's place, and how far files were synced:",
         early[:1])
    want(0 < syncs < sends, f"for {sends} sends the log was synced {syncs} times")
    print(f"    {sends} sends, {syncs} syncs", flush=True)


@check("with --connections it ends with status 0 once so many links have ended")
def _(folder):
    if not IS_SERVE:
        raise Skipped("it takes no words of serve")
    server = Server(folder, "--connections", "3").__enter__()
    try:
        links = [server.link() for _ in range(3)]
        for k in (2, 0, 1):
            want(links[k].store([b"hi"], "A", opaque=k) == [[2, 0, 1].index(k)], "the offset is another")
            want(server.child.poll() is None, "it ended before its links did")
            links[k].close()
        try:
            status = server.child.wait(WAIT)
        except subprocess.TimeoutExpired:
            raise Failed(f"{WAIT} s after its links have ended it runs") from None
        want(status == 0, "its status is", status)
        want([r["body"] for r in records(folder)] == [b"hi"] * 3, "its log is another")
    finally:
        server.kill()


sys.exit(1 if FAULTS else 0)
