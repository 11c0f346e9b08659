"""Runs of the real program under a clock that stands still until a check sets it: set_clock.c beside this file is that clock."""
import os
import shutil
import signal
import socket
import subprocess
import tempfile
import time

from wire import PROGRAM, all_replies, frame, frames_of, pull, pulled, records, reply_of, send

HERE = os.path.dirname(os.path.abspath(__file__))
FIRST = "store/commitlog/" + "0" * 20
LIBRARY_FOLDER = tempfile.TemporaryDirectory()
LIBRARY = LIBRARY_FOLDER.name + "/set_clock.so"


class Clock:
    """The clock of the program in a folder, in milliseconds."""

    def __init__(self, folder, now=1000):
        self.path = folder + "/clock"
        self.set(now)

    def set(self, now):
        self.now = now
        with open(self.path + ".new", "w") as file:
            file.write(str(now))
        os.replace(self.path + ".new", self.path)

    def words(self):
        return {**os.environ, "LD_PRELOAD": LIBRARY, "SET_CLOCK": self.path}


class Pipe:
    """A run of `pipe` that is asked one request after another. Check-backs that come before a reply are put into `checks`."""

    def __init__(self, folder, clock, *words, **more):
        self.checks = []
        self.child = subprocess.Popen([PROGRAM, "pipe", *words], stdin=subprocess.PIPE, stdout=subprocess.PIPE, cwd=folder,
                                      env=clock.words(), **more)

    def say(self, *requests):
        self.child.stdin.write(b"".join(requests))
        self.child.stdin.flush()

    def hear(self):
        """The next frame, or None where the program has ended and no whole one is left."""
        size = self.child.stdout.read(4)
        rest = self.child.stdout.read(int.from_bytes(size, "big"))
        is_whole = len(size) == 4 and len(rest) == int.from_bytes(size, "big")
        return {**reply_of(size + rest), "frame": size + rest} if is_whole else None

    def reply(self):
        """The next reply, or None where the program has ended."""
        told = self.hear()
        while told is not None and told["flag"] & 1 == 0:
            self.checks.append(told)
            told = self.hear()
        return told

    def ask(self, request):
        self.say(request)
        told = self.reply()
        assert told is not None, "the program has ended"
        return told

    def end(self):
        self.child.stdin.close()
        while self.reply() is not None:
            pass
        assert self.child.wait(60) == 0, self.child.returncode

    def kill(self):
        self.child.kill()
        self.child.wait(60)

    def __enter__(self):
        return self

    def __exit__(self, *_):
        self.kill()
        try:
            self.child.stdin.close()
        except BrokenPipeError:
            pass  # what was said last was not read
        self.child.stdout.close()


class Serve:
    """A run of `serve` with one link, until it is killed."""

    def __init__(self, folder, clock):
        port, end = free_port(), time.time() + 20
        self.child = subprocess.Popen([PROGRAM, "serve", "--host", f"127.0.0.1:{port}"], cwd=folder, env=clock.words(),
                                      stderr=subprocess.DEVNULL)
        self.link, self.held = None, b""
        while self.link is None:
            assert time.time() < end and self.child.poll() is None
            try:
                self.link = socket.create_connection(("127.0.0.1", port), 20)
            except OSError:
                time.sleep(0.02)

    def ask(self, *requests):
        """The replies to these requests."""
        self.link.sendall(b"".join(requests))
        while len(frames_of(self.held)[0]) < len(requests):
            self.held += self.link.recv(1 << 16) or b"-" * 4
        told, self.held = all_replies(self.held), b""
        return told

    def __enter__(self):
        return self

    def __exit__(self, *_):
        self.link.close()
        self.child.send_signal(signal.SIGKILL)
        self.child.wait(20)


def run(folder, clock, data=b"", words=("pipe",), **more):
    """The status of a run, and its replies."""
    done = subprocess.run([PROGRAM, *words], input=data, cwd=folder, stdout=subprocess.PIPE, env=clock.words(), timeout=60, **more)
    return done.returncode, all_replies(done.stdout)


def answers(folder, clock, data=b"", words=("pipe",)):
    status, told = run(folder, clock, data, words)
    assert status == 0, status
    return told


def greatest(opaque, topic, queue=0):
    return frame({"code": 30, "extFields": {"topic": topic, "queueId": str(queue)}, "flag": 0, "opaque": opaque, "version": 395})


def pairs_of(text):
    """The properties of a record, in order."""
    return [tuple(piece.split("\x01")) for piece in text.split("\x02")[:-1]]


def said_of(r):
    """What a record has of what was sent."""
    return {name: r[name] for name in ("topic", "queue", "body", "props", "sysflag", "born", "reconsume")}


def pulled_all(folder, clock, topics):
    """The records of all four queues of these topics, as a consumer pulls them in a run of its own."""
    found = []
    with Pipe(folder, clock) as pipe:
        for topic in topics:
            for queue in range(4):
                offset, code = 0, 0
                while code == 0:
                    reply = pipe.ask(pull(0, topic, offset, queueId=str(queue)))
                    found += pulled(reply["body"])
                    code, offset = reply["code"], int(reply["extFields"]["nextBeginOffset"])
                assert code == 19, reply
    return found


def free_port():
    with socket.socket() as door:
        door.bind(("127.0.0.1", 0))
        return door.getsockname()[1]


def is_clock_taken():
    """Builds the clock, and tries whether the program reads it."""
    if shutil.which("cc") is None:
        return False
    subprocess.run(["cc", "-shared", "-fPIC", "-O1", "-o", LIBRARY, HERE + "/set_clock.c"], check=True)
    with tempfile.TemporaryDirectory() as folder:
        run(folder, Clock(folder, 4711), send(0, b"hi"))
        return [r["store"] for r in records(folder)] == [4711]
