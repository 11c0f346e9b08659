"""Runs of `serve` for the client of clients/python, which may be killed and started again at the same address."""
import os
import random
import socket
import subprocess
import sys
import time

from wire import PROGRAM

HERE = os.path.dirname(os.path.abspath(__file__))
CLIENT = os.path.join(HERE, "..", "clients", "python")
sys.path.insert(0, CLIENT)

WAIT = 20  # seconds until what has to come is missed


def free_port():
    """A port that the system gives nobody by itself, since it has to stay free while the broker is killed."""
    while True:
        port = random.randrange(20000, 32000)
        with socket.socket() as door:
            try:
                door.bind(("127.0.0.1", port))
                return port
            except OSError:
                continue


class Broker:
    """The program in a folder; it may be killed and started again."""

    def __init__(self, folder, port=None):
        self.folder, self.port = folder, port or free_port()
        self.address = f"127.0.0.1:{self.port}"
        self.start()

    def start(self):
        """Starts it, and returns once it listens."""
        end = time.time() + WAIT
        self.child = self.run()
        while True:
            try:
                socket.create_connection(("127.0.0.1", self.port), 1).close()
                return
            except OSError:
                assert time.time() < end, f"nobody listens on port {self.port}"
                assert self.child.poll() is None, f"the program ended with status {self.child.returncode}"
                time.sleep(0.02)

    def run(self):
        return subprocess.Popen([PROGRAM, "serve", "--host", self.address], cwd=self.folder, stdin=subprocess.DEVNULL,
                                stderr=subprocess.DEVNULL)

    def kill(self):
        self.child.kill()
        self.child.wait(WAIT)

    def __enter__(self):
        return self

    def __exit__(self, *_):
        self.kill()


def until(holds, missed, seconds=WAIT):
    """Waits until something holds, at most so many seconds. `missed` is what is said where it doesn't, or a call that says it."""
    end = time.time() + seconds
    while not holds():
        assert time.time() < end, missed() if callable(missed) else missed
        time.sleep(0.02)
