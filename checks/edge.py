#!/usr/bin/env python3
"""Where the program meets the system: checks/edge.py PROGRAM.

Closed and non-blocking standard streams, a log with a wrong byte, a store that is moved, full or read-only, a clock that was ahead, few
descriptors, and what connections that never say a whole frame may take. Where nothing may change, the whole folder is compared before
and after. Each check prints its name; the first that fails ends it. What takes root, strace or cc is skipped where there is none.
"""
import contextlib
import itertools
import json
import os
import re
import resource
import select
import shutil
import signal
import socket
import stat
import subprocess
import threading
import time

import clocked
from clocked import Clock, free_port
from wire import PROGRAM, all_replies, check, commit, frame, frames_of, log_files, number, pull, pulled, records, reply_of, run, send

WAIT = 20  # seconds until what has to come is missed
NOBODY = 65534
LOG = "store/commitlog/" + "0" * 20
ENDED = "store/config/ended"
HAS_CLOCK = clocked.is_clock_taken()


def call(folder, *words, data=b"", **more):
    """The status, and what was written on standard output and standard error."""
    done = subprocess.run([PROGRAM, *words], input=data, cwd=folder, stdout=subprocess.PIPE, stderr=subprocess.PIPE, timeout=60, **more)
    return done.returncode, done.stdout, done.stderr.decode()


def skip(why):
    print(f"skipped, {why}:", end=" ")


def tree(folder):
    """What is in a folder: of each path its kind, rights, time of change, and its bytes."""
    found = {}
    for place, folders, names in os.walk(folder):
        for path in [place] + [os.path.join(place, name) for name in names]:
            seen = os.lstat(path)
            found[path] = seen.st_mode, seen.st_mtime_ns, open(path, "rb").read() if stat.S_ISREG(seen.st_mode) else b""
    return found


def fill(folder, texts, *words):
    status, out = run(b"".join(send(k, text) for k, text in enumerate(texts)), folder, ("pipe", *words))
    assert status == 0 and [r["code"] for r in all_replies(out)] == [0] * len(texts), (status, out)


def bodies(reply):
    return [r["body"] for r in pulled(reply["body"])]


def all_bodies(folder, *words):
    status, out = run(pull(0, "T", 0), folder, ("pipe", *words))
    assert status == 0, status
    return bodies(all_replies(out)[0])


class Talk:
    """A run of `pipe` that is asked one request after another, until it is killed."""

    def __init__(self, folder, *words, **more):
        self.child = subprocess.Popen([PROGRAM, "pipe", *words], cwd=folder, stdin=subprocess.PIPE, stdout=subprocess.PIPE,
                                      stderr=subprocess.PIPE, **more)

    def ask(self, request):
        self.child.stdin.write(request)
        self.child.stdin.flush()
        size = self.child.stdout.read(4)
        return reply_of(size + self.child.stdout.read(int.from_bytes(size, "big")))

    def end(self):
        """The status, and what was written on standard error."""
        _, said = self.child.communicate(timeout=WAIT)
        return self.child.returncode, said.decode()

    def written(self):
        """How many bytes it has written, by its calls."""
        with open(f"/proc/{self.child.pid}/io") as file:
            return int(re.search(r"wchar: (\d+)", file.read()).group(1))

    def __enter__(self):
        return self

    def __exit__(self, *_):
        self.child.kill()
        self.child.communicate()


class Link:
    """A connection to a port, from the moment when somebody listens there."""

    def __init__(self, port):
        end = time.time() + WAIT
        self.socket, self.held = None, b""
        while self.socket is None:
            try:
                self.socket = socket.create_connection(("127.0.0.1", port), WAIT)
            except ConnectionRefusedError:
                assert time.time() < end, "nobody listens"
                time.sleep(0.02)

    def ask(self, request):
        self.socket.sendall(request)
        while not frames_of(self.held)[0]:
            piece = self.socket.recv(1 << 16)
            assert piece, "the connection ended"
            self.held += piece
        told, self.held = frames_of(self.held)
        return reply_of(told[0])


class Serve:
    """A run of `serve`, until it is killed."""

    def __init__(self, folder, *words, **more):
        self.port = free_port()
        self.child = subprocess.Popen([PROGRAM, "serve", "--host", f"127.0.0.1:{self.port}", *words], cwd=folder, stdin=subprocess.DEVNULL,
                                      stderr=subprocess.PIPE, **more)

    def first_line(self):
        return self.child.stderr.readline().decode()

    def link(self):
        return Link(self.port)

    def memory(self):
        """Its memory in MiB."""
        with open(f"/proc/{self.child.pid}/status") as file:
            return int(re.search(r"VmRSS:\s+(\d+)", file.read()).group(1)) >> 10

    def __enter__(self):
        return self

    def __exit__(self, *_):
        self.child.kill()
        self.child.communicate()


COMBINATIONS = [closed for size in (1, 2, 3) for closed in itertools.combinations((0, 1, 2), size)]


def closing(closed):
    def close():
        for fd in closed:
            os.close(fd)
    return close


@check("closed standard streams: no run of a command or a tool writes into the store, or takes a number of theirs for a file of it")
def _(folder):
    fill(folder, [b"first", b"second", b"third"])
    before = log_files(folder)
    for k, closed in enumerate(COMBINATIONS):
        rows = [(("pipe",), pull(0, "T", 0)), (("dump",), b""), (("verify",), b""), (("gen", "9", "7", "--store", f"made{k}"), b""),
                (("--help",), b""), (("--version",), b"")]
        for words, data in rows:
            status, out, said = call(folder, *words, data=data, preexec_fn=closing(closed))
            assert (status, said) == (0, ""), (closed, words, status, said)
            assert (out == b"") == (1 in closed or (words == ("pipe",) and 0 in closed)), (closed, words, out)
            assert log_files(folder) == before, (closed, words)
        assert call(folder, "verify", "--store", f"made{k}")[0] == 0, closed
        with Serve(folder, "--connections", "1", preexec_fn=closing(closed)) as server:
            link = server.link()
            assert bodies(link.ask(pull(0, "T", 0))) == [b"first", b"second", b"third"], closed
            for fd in (0, 1, 2):
                assert "store" not in os.readlink(f"/proc/{server.child.pid}/fd/{fd}"), (closed, fd)
            link.socket.close()
            assert server.child.wait(WAIT) == 0, closed
        assert log_files(folder) == before, closed
    assert call(folder, "verify")[:2] == (0, b"records 3 end %d\nequal\n" % sum(r["size"] for r in records(folder)))


def in_room_of_its_own(folder):
    """The path of the program in a folder that can be the root of a run, with what it is linked to and without /dev/null."""
    said = subprocess.run(["ldd", PROGRAM], stdout=subprocess.PIPE, stderr=subprocess.DEVNULL).stdout.decode()
    for path in re.findall(r"(/\S+) \(0x", said):
        os.makedirs(os.path.dirname(folder + path), exist_ok=True)
        shutil.copy(path, folder + path)
    shutil.copy(PROGRAM, folder + "/program")
    return "/program"


@check("a closed standard stream where /dev/null can't be opened is status 1, and nothing is made; with all three open it doesn't matter")
def _(folder):
    if os.getuid() != 0 or shutil.which("ldd") is None:
        skip("it takes root and ldd")
        return
    program = in_room_of_its_own(folder)

    def room(closed):
        def enter():
            os.chroot(folder)
            os.chdir("/")
            closing(closed)()
        return enter
    before = tree(folder)
    for closed in ((0,), (1,), (0, 1)):
        done = subprocess.run([program, "pipe"], input=b"", stdout=subprocess.PIPE, stderr=subprocess.PIPE, preexec_fn=room(closed))
        assert done.returncode == 1 and b"/dev/null can't be opened (status 1): " in done.stderr.splitlines()[-1], (closed, done)
        assert tree(folder) == before, closed
    done = subprocess.run([program, "pipe"], input=send(0, b"hi"), stdout=subprocess.PIPE, stderr=subprocess.PIPE, preexec_fn=room(()))
    assert done.returncode == 0 and [r["code"] for r in all_replies(done.stdout)] == [0], done


def flip(path, at):
    with open(path, "r+b") as file:
        file.seek(at)
        byte = file.read(1)
        file.seek(at)
        file.write(bytes([byte[0] ^ 1]))


FIVE = [b"number %d" % k for k in range(5)]


def five(folder):
    """A store of five records that ended in order, and their places and where they end."""
    shutil.rmtree(folder + "/store", ignore_errors=True)
    fill(folder, FIVE)
    found = records(folder)
    return [r["place"] for r in found] + [found[-1]["place"] + found[-1]["size"]]


@check("a wrong bit in any record of a log that ended in order is status 8, and nothing is cut")
def _(folder):
    for k in range(5):
        places = five(folder)
        assert open(os.path.join(folder, ENDED)).read() == f"{places[5]}\n"
        flip(os.path.join(folder, LOG), places[k] + 90)
        before = tree(folder + "/store")
        for words in (("pipe",), ("serve", "--host", f"127.0.0.1:{free_port()}")):
            status, out, said = call(folder, *words, data=send(9, b"new"))
            last = said.splitlines()[-1]
            assert (status, out) == (8, b"") and LOG in last and "(status 8)" in last and "ended in order" in last, (k, words, status, said)
        assert tree(folder + "/store") == before, k


@check("a wrong bit in any record of a log that didn't end in order: what is cut is kept in cut/, and a line says so")
def _(folder):
    for k in range(5):
        places = five(folder)
        os.remove(os.path.join(folder, ENDED))
        flip(os.path.join(folder, LOG), places[k] + 90)
        tail = open(os.path.join(folder, LOG), "rb").read()[places[k]:].rstrip(b"\0")
        status, out, said = call(folder, "pipe", data=send(9, b"new") + pull(10, "T", 0))
        assert status == 0 and bodies(all_replies(out)[1]) == FIVE[:k] + [b"new"], (k, status, said)
        assert open(folder + "/store/cut/%020d" % places[k], "rb").read() == tail, k
        assert said.startswith(f"mq_broker: cut {len(tail)} bytes off {LOG} from {places[k]} on") and said.count("\n") == 1, said
        assert f"{4 - k} whole records" in said and "store/cut/%020d" % places[k] in said, said


@check("a second process on the store is status 5 though the file lock was removed, the line names no disk, and nothing is changed")
def _(folder):
    with Talk(folder) as first:
        assert first.ask(send(0, b"first"))["code"] == 0
        for words in (("pipe",), ("verify",), ("dump",), ("gen", "9", "7")):
            with contextlib.suppress(FileNotFoundError):
                os.remove(folder + "/store/lock")
            before = log_files(folder), open(folder + "/store/config/format", "rb").read()
            status, out, said = call(folder, *words, data=send(1, b"second"))
            assert (status, out) == (5, b"") and "another process has the store (status 5)" in said, (words, status, said)
            assert "the disk failed" not in said and said.count("\n") == 1, said
            assert (log_files(folder), open(folder + "/store/config/format", "rb").read()) == before, words
        assert first.ask(send(2, b"third"))["code"] == 0
        assert first.end() == (0, "")
    assert all_bodies(folder) == [b"first", b"third"]


@check("a store folder that is moved away or replaced while it is used takes nothing more from the next segment on")
def _(folder):
    for kind in (Talk, Serve):
        for is_replaced in (False, True):
            with kind(folder, "--segment", "4096") as broker:
                broker = broker.link() if kind is Serve else broker
                assert broker.ask(send(0, b"kept" + b"x" * 2000))["code"] == 0
                os.rename(folder + "/store", folder + "/away")
                if is_replaced:
                    os.mkdir(folder + "/store")
                told = [broker.ask(send(k, b"x" * 2500))["code"] for k in (1, 2, 3)]
                assert 0 not in told, (kind, told)
                assert os.listdir(folder + "/store") == [] if is_replaced else not os.path.exists(folder + "/store"), kind
            if is_replaced:
                os.rmdir(folder + "/store")
            os.rename(folder + "/away", folder + "/store")
            found = all_bodies(folder, "--segment", "4096")
            assert found == [b"kept" + b"x" * 2000], (kind, len(found))
            shutil.rmtree(folder + "/store")


@contextlib.contextmanager
def small_disk(folder, size="1m"):
    """A file system of its own at `disk` in this folder. False where it can't be had."""
    os.mkdir(folder + "/disk")
    done = subprocess.run(["mount", "-t", "tmpfs", "-o", f"size={size}", "tmpfs", folder + "/disk"], stderr=subprocess.DEVNULL)
    try:
        yield done.returncode == 0
    finally:
        if done.returncode == 0:
            subprocess.run(["umount", "-l", folder + "/disk"], check=True)


ON_DISK = ("--store", "disk/store")


def fill_up(path):
    with open(path, "wb", buffering=0) as file, contextlib.suppress(OSError):
        while True:
            file.write(bytes(4096))


@check("a store on a full disk opens, answers pulls and refuses sends, and goes on once there is room; the tools work too")
def _(folder):
    with small_disk(folder) as is_there:
        if not is_there:
            skip("no file system can be mounted")
            return
        fill(folder, [b"kept"], *ON_DISK)
        fill_up(folder + "/disk/other")
        assert call(folder, "dump", *ON_DISK)[0] == 0 and call(folder, "verify", *ON_DISK)[0] == 0
        with Talk(folder, *ON_DISK) as broker:
            assert bodies(broker.ask(pull(0, "T", 0))) == [b"kept"]
            for k in (1, 2):
                told = broker.ask(send(k, b"x" * 9000))
                assert told["code"] in (1, 10) and told["remark"].split(" ")[0] in ("disk", "flush"), told
            assert bodies(broker.ask(pull(3, "T", 0)))[:1] == [b"kept"]
            os.remove(folder + "/disk/other")
            assert broker.ask(send(4, b"after"))["code"] == 0
            assert broker.end() == (0, "")
        found = all_bodies(folder, *ON_DISK)
        assert found[0] == b"kept" and found[-1] == b"after", [len(body) for body in found]


def open_to_readers(folder):
    os.chmod(folder, 0o755)
    for place, _, names in os.walk(folder + "/store"):
        os.chmod(place, 0o555)
        for name in names:
            os.chmod(os.path.join(place, name), 0o444)


def as_nobody(folder, *words, data=b""):
    """A run of a user without rights, as `call`, or None where there can't be one."""
    if os.getuid() != 0:
        return None
    if not os.path.exists(folder + "/program"):
        shutil.copy(PROGRAM, folder + "/program")
        os.chmod(folder + "/program", 0o755)
    done = subprocess.run([folder + "/program", *words], input=data, cwd=folder, stdout=subprocess.PIPE, stderr=subprocess.PIPE, timeout=60,
                          user=NOBODY, group=NOBODY, extra_groups=[])
    return done.returncode, done.stdout, done.stderr.decode()


@check("dump and verify read a store on a read-only disk, and as a user who may only read, and change nothing")
def _(folder):
    with small_disk(folder) as is_there:
        if not is_there:
            skip("no file system can be mounted")
            return
        fill(folder, [b"first", b"second"], *ON_DISK)
        told = [call(folder, tool, *ON_DISK) for tool in ("dump", "verify")]
        assert all(status == 0 and said == "" for status, _, said in told), told
        before = tree(folder + "/disk")
        subprocess.run(["mount", "-o", "remount,ro", folder + "/disk"], check=True)
        assert [call(folder, tool, *ON_DISK) for tool in ("dump", "verify")] == told and tree(folder + "/disk") == before
        subprocess.run(["mount", "-o", "remount,rw", folder + "/disk"], check=True)
    fill(folder, [b"first", b"second"])
    open_to_readers(folder)
    before = tree(folder + "/store")
    for tool, want in zip(("dump", "verify"), told):
        found = as_nobody(folder, tool)
        assert found is None or found == want, (tool, found)
    assert tree(folder + "/store") == before


@check("a tool makes nothing where no store is")
def _(folder):
    for tool in ("dump", "verify"):
        status, out, said = call(folder, tool)
        assert status != 0 and out == b"" and "store" in said and os.listdir(folder) == [], (tool, status, said)


@check("a store in a folder that its user may pass through but not read is served")
def _(folder):
    os.chmod(folder, 0o755)
    os.mkdir(folder + "/closed")
    os.chmod(folder + "/closed", 0o777)
    made = as_nobody(folder, "pipe", "--store", "closed/store", data=send(0, b"first"))
    if made is None:
        skip("it takes root")
        return
    assert made[0] == 0, made
    os.chmod(folder + "/closed", 0o711)
    status, out, said = as_nobody(folder, "pipe", "--store", "closed/store", data=send(1, b"second") + pull(2, "T", 0))
    assert (status, said) == (0, "") and bodies(all_replies(out)[1]) == [b"first", b"second"], (status, said)


@check("what the program makes is for its own user alone")
def _(folder):
    before = os.umask(0o022)
    try:
        fill(folder, [b"x" * 2500] * 3, "--segment", "4096")
        assert run(commit(0, 1), folder)[0] == 0
        with Serve(folder) as server:
            assert server.link().ask(send(0, b"hi"))["code"] == 0
    finally:
        os.umask(before)
    for place, _, names in os.walk(folder + "/store"):
        assert stat.S_IMODE(os.stat(place).st_mode) == 0o700, place
        for name in names:
            assert stat.S_IMODE(os.stat(os.path.join(place, name)).st_mode) == 0o600, (place, name)


def locked(pipe, client):
    said = {"consumerGroup": "G", "clientId": client, "mqSet": [{"topic": "T", "brokerName": "b", "queueId": 0}]}
    told = pipe.ask(frame({"code": 41, "opaque": 0, "flag": 0, "version": 395, "extFields": {}}, json.dumps(said).encode()))
    return len(json.loads(told["body"])["lockOKMQSet"])


@check("a clock that was ahead: a line says by how much, and queue locks end all the same, over restarts")
def _(folder):
    if not HAS_CLOCK:
        skip("no cc, or the program takes no library")
        return
    clock, now = Clock(folder, 4_000_000_000_000), 1_700_000_000_000
    clocked.answers(folder, clock, send(0, b"early"))
    for _ in range(2):
        clock.set(now)
        with clocked.Pipe(folder, clock, stderr=subprocess.PIPE) as pipe:
            assert [locked(pipe, client) for client in ("A", "B", "A")] == [1, 0, 1]
            clock.set(now + 60_000)
            assert locked(pipe, "B") == 0
            clock.set(now + 60_001)
            assert [locked(pipe, client) for client in ("B", "A")] == [1, 0]
            pipe.child.stdin.close()
            said = pipe.child.stderr.read().decode()
        assert said.startswith("mq_broker: ") and f"{4_000_000_000_000 - now} ms ahead of the clock" in said and said.count("\n") == 1, said
        now += 1_000_000


def few_files(most):
    return {"preexec_fn": lambda: resource.setrlimit(resource.RLIMIT_NOFILE, (most, most))}


@check("with few descriptors serve lets in fewer connections and says so, and with too few it ends with 10 before it makes anything")
def _(folder):
    for most in (8, 16, 39):
        status, out, said = call(folder, "serve", "--host", f"127.0.0.1:{free_port()}", **few_files(most))
        assert (status, out) == (10, b"") and f"limit of open files is {most} (status 10): " in said and "ulimit -n" in said, (status, said)
        assert said.count("\n") == 1 and os.listdir(folder) == [], said
    rows = [((), "store", True), (("--links", "9", "--flush", "sync"), "store", True), (("--links", "8"), "store", False),
            (("--store", "--links", "--links", "100"), "--links", True)]
    for words, store, is_bounded in rows:
        with Serve(folder, *words, **few_files(40)) as server:
            line = server.first_line()
            assert line.endswith(", at most 8 connections, since the limit of open files is 40\n") == is_bounded, line
            assert server.link().ask(pull(0, "T", 0))["opaque"] == 0 and os.path.exists(f"{folder}/{store}"), words
    with Serve(folder, **few_files(40)) as server:
        first = server.link()
        assert first.ask(send(0, b"first"))["code"] == 0
        idle = [server.link() for _ in range(60)]
        for k in range(1, 30):
            assert first.ask(send(k, b"%d" % k))["code"] == 0, k
        assert len(bodies(first.ask(pull(30, "T", 0)))) == 30 and first.ask(commit(31, 7))["code"] == 0
        end = time.time() + WAIT
        while not os.path.exists(folder + "/store/config/consumerOffset.json"):
            assert time.time() < end, "the offsets are not kept"
            time.sleep(0.1)
        first.socket.close()
        for link in idle:
            assert link.ask(pull(0, "T", 0))["code"] == 0
            link.socket.close()


@check("the name of a new store is synced in its parent, however the path ends")
def _(folder):
    trace = ["strace", "-f", "-y", "-o", folder + "/trace", "-e", "trace=fsync"]
    if shutil.which("strace") is None or subprocess.run([*trace, "true"], stderr=subprocess.DEVNULL).returncode != 0:
        skip("no strace, or it is refused")
        return
    here = os.path.realpath(folder)
    for path in ("d", "d/", "d//", "./d/"):
        subprocess.run([*trace, PROGRAM, "pipe", "--store", path], cwd=folder, input=send(0, b"hi"), stdout=subprocess.PIPE, check=True)
        said = open(folder + "/trace").read()
        assert re.search(r"fsync\(\d+<%s>\) += 0" % re.escape(here), said), (path, said)
        shutil.rmtree(folder + "/d")


def processor_seconds(pid):
    with open(f"/proc/{pid}/stat") as file:
        fields = file.read().rpartition(")")[2].split()
    return (int(fields[11]) + int(fields[12])) / os.sysconf("SC_CLK_TCK")


@check("pipe waits where its input or output is non-blocking, and takes no processor time meanwhile")
def _(folder):
    in_read, in_write = os.pipe()
    out_read, out_write = os.pipe()
    os.set_blocking(in_read, False)
    os.set_blocking(out_write, False)
    child = subprocess.Popen([PROGRAM, "pipe"], stdin=in_read, stdout=out_write, stderr=subprocess.PIPE, cwd=folder)
    os.close(in_read)
    os.close(out_write)
    time.sleep(1)
    before = processor_seconds(child.pid)
    time.sleep(1)
    assert processor_seconds(child.pid) - before < 0.3, "it is busy while nothing comes"

    def say():
        with open(in_write, "wb") as file:
            for k in range(6):
                text = send(k, b"%d" % k + b"x" * 30_000)
                file.write(text[:100])
                file.flush()
                time.sleep(0.05)
                file.write(text[100:])
            for k in range(6, 26):
                file.write(pull(k, "T", 0))
    speaker = threading.Thread(target=say, daemon=True)
    speaker.start()
    time.sleep(2)
    before = processor_seconds(child.pid)
    time.sleep(1)
    assert processor_seconds(child.pid) - before < 0.3, "it is busy while nobody reads"
    with open(out_read, "rb") as file:
        told = all_replies(file.read())
    speaker.join(WAIT)
    said = child.communicate(timeout=WAIT)[1]
    assert (child.returncode, said) == (0, b"") and [r["code"] for r in told] == [0] * 26, (child.returncode, said)
    assert all(len(bodies(r)) == 6 for r in told[6:])


@check("an opening writes the end of the log again after a kill, and not after an end in order")
def _(folder):
    fill(folder, [b"x" * (2 << 20)] * 4)
    size = sum(r["size"] for r in records(folder))
    for is_renewed, is_ended in ((False, False), (True, False), (True, True), (False, True)):
        with Talk(folder) as broker:
            assert broker.ask(pull(0, "T", 9))["opaque"] == 0
            assert size <= broker.written() if is_renewed else broker.written() < size / 8, (is_renewed, broker.written())
            assert broker.ask(send(1, b"more"))["code"] == 0
            if is_ended:
                assert broker.end() == (0, "")


def more_files(count):
    """Lets this process have so many files open, or answers False."""
    soft, hard = resource.getrlimit(resource.RLIMIT_NOFILE)
    if hard != resource.RLIM_INFINITY and hard < count:
        return False
    resource.setrlimit(resource.RLIMIT_NOFILE, (max(soft, count), hard))
    return True


# In MiB: two loops with 256 each, and what one pass reads before it looks at the bound.
MOST_MEMORY = 900


def pour(server, sockets, each, seconds):
    """Says so many bytes over each socket, round about, as fast as they are taken. Answers the most memory that the server had meanwhile."""
    piece, left = bytes(1 << 16), {link.fileno(): each for link in sockets}
    by_number = {link.fileno(): link for link in sockets}
    ready, most, end = select.epoll(), 0, time.time() + seconds
    for fd in left:
        ready.register(fd, select.EPOLLOUT)
    look = 0
    while left and time.time() < end:
        for fd, event in ready.poll(0.2):
            try:
                taken = by_number[fd].send(piece[:left[fd]]) if not event & (select.EPOLLERR | select.EPOLLHUP) else 0
            except BlockingIOError:
                continue
            except OSError:
                taken = 0
            left[fd] -= taken
            if taken == 0 or left[fd] == 0:
                ready.unregister(fd)
                del left[fd]
        if time.time() > look:
            look, most = time.time() + 0.05, max(most, server.memory())
            assert most < MOST_MEMORY, f"it takes {most} MiB"
    return max(most, server.memory())


@check("1,024 connections that have each said a frame of 16 MiB but for its last byte take less than 900 MiB, and others are served")
def _(folder):
    if not more_files(2200):
        skip("too few files may be open")
        return
    with Serve(folder) as server:
        assert server.link().ask(send(0, b"before"))["code"] == 0
        front = number(1 << 24, 4) + b"\0" + number(200, 3) + b" " * 200
        sockets = []
        for _ in range(1024):
            link = server.link().socket
            link.sendall(front)
            link.setblocking(False)
            sockets.append(link)
        most = pour(server, sockets, (1 << 24) + 3 - len(front), 15)
        for link in sockets[::8]:
            link.close()
        fresh = server.link()
        assert fresh.ask(send(1, b"after"))["code"] == 0 and bodies(fresh.ask(pull(2, "T", 0))) == [b"before", b"after"]
        assert server.memory() < MOST_MEMORY and most < MOST_MEMORY, (most, server.memory())
