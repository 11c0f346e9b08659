#!/usr/bin/env python3
"""What an operator meets: checks/face.py PROGRAM.

Each line that the program prints besides replies, each exit status that can be made here, where the store is, and where it listens.
Each check prints its name; the first that fails ends it.
"""
import os
import resource
import signal
import socket
import subprocess
import time

from wire import PROGRAM, check, run, send

OPTIONS = ("--store", "--host", "--flush", "--segment", "--slots", "--entries")
OF_SERVE = ("--listen", "--links", "--connections")
LOG = "store/commitlog/00000000000000000000"
KEPT = "store/config/topics.json"
WAIT = 20  # seconds until what has to come is missed


def call(folder, *words, data=b"", **more):
    """The status, and what was written on standard output and standard error."""
    done = subprocess.run([PROGRAM, *words], input=data, cwd=folder, stdout=subprocess.PIPE, stderr=subprocess.PIPE, timeout=60, **more)
    return done.returncode, done.stdout, done.stderr.decode()


def line_of(folder, *words, data=b"", **more):
    """The status of a run that writes nothing but one line on standard error, and that line."""
    status, out, line = call(folder, *words, data=data, **more)
    assert line.startswith("mq_broker: ") and line.count("\n") == 1 and f" (status {status}): " in line, (words, status, line)
    return status, out, line


def everything(folder):
    return sorted(os.path.join(at, name) for at, folders, files in os.walk(folder) for name in folders + files)


def free_port():
    with socket.socket() as door:
        door.bind(("127.0.0.1", 0))
        return door.getsockname()[1]


def is_heard(address, port):
    with socket.socket() as link:
        link.settimeout(WAIT)
        try:
            link.connect((address, port))
        except ConnectionRefusedError:
            return False
        return True


class Serving:
    """The program that serves in a folder, once it is heard at an address, until it is killed."""

    def __init__(self, folder, *words, at="127.0.0.1", port=0):
        self.child = subprocess.Popen([PROGRAM, "serve", *words], cwd=folder, stdin=subprocess.DEVNULL, stdout=subprocess.PIPE,
                                      stderr=subprocess.PIPE)
        end = time.time() + WAIT
        while not is_heard(at, port):
            assert self.child.poll() is None and time.time() < end, (words, self.child.returncode)
            time.sleep(0.02)

    def __enter__(self):
        return self

    def __exit__(self, *_):
        self.child.kill()
        self.child.communicate()


@check("--help and --version are written on standard output with status 0, the help of a command with its options, and nothing is made")
def _(folder):
    status, out, said = call(folder, "--help")
    assert (status, said) == (0, "") and all(option in out.decode() for option in OPTIONS + OF_SERVE), out
    assert call(folder, "--version") == (0, b"mq_broker 0.1.0\n", "")
    status, out, said = call(folder, "pipe", "--help")
    assert (status, said) == (0, "") and all(option in out.decode() for option in OPTIONS), out
    assert not any(option in out.decode() for option in OF_SERVE), out
    status, out, said = call(folder, "serve", "--help")
    assert (status, said) == (0, "") and all(option in out.decode() for option in OPTIONS + OF_SERVE), out
    assert call(folder, "-h") == call(folder, "--help") and call(folder, "serve", "--links", "5", "-h") == (status, out, said)
    assert everything(folder) == []


@check("the values that the help names for an option are those that are taken")
def _(folder):
    for row in call(folder, "--help")[1].decode().splitlines():
        name, _, rest = row.strip().partition(" ")
        if not name.startswith("--") or ".." not in rest.split()[0]:
            continue
        low, high = (int(number) for number in rest.split()[0].split(".."))
        for value, fits in ((low - 1, False), (high + 1, False), (low, True), (high, True)):
            # An option behind it that is none is told of only where the value fits.
            line = line_of(folder, "serve", name, str(value), "--none")[2]
            assert ('"--none"' in line) == fits and (f'"{value}"' in line) != fits, (name, value, line)
    assert everything(folder) == []


@check("arguments that don't fit are status 1 with a line that names the first of them, and nothing is made")
def _(folder):
    rows = [
        ((), "no command"), (("dumps",), '"dumps" is no command'), (("--help", "x"), '"--help" is no command'), (("pipe", "x"), '"x" is no option'),
        (("pipe", "--links", "1"), '"--links" is no option'), (("pipe", "--listen", "127.0.0.1:1"), '"--listen" is no option'),
        (("pipe", "--flush"), '"--flush" has no value'), (("pipe", "--flush", "often"), '"often" is no value of --flush'),
        (("pipe", "--store", ""), '"" is no value of --store'), (("pipe", "--segment", "4096", "--segment", "4096"), '"--segment" is given twice'),
        (("serve", "--host", "localhost:1"), '"localhost:1" is no value of --host'), (("serve", "--listen", "0.0.0.0"), '"0.0.0.0" is no value'),
        (("serve", "--links", "4097"), '"4097" is no value of --links'), ((b"pipe", b"\xff"), "is no command")]
    for words, said in rows:
        status, out, line = line_of(folder, *words, data=send(0, b"hi"))
        assert (status, out) == (1, b"") and said in line and "--help" in line, (words, status, line)
    assert everything(folder) == []


@check("a run of pipe that ends with status 0 writes replies and nothing else")
def _(folder):
    status, out, said = call(folder, "pipe", data=send(0, b"hi"))
    assert status == 0 and out and said == "", said


@check("--store is the folder of the store, in or beside the current one")
def _(folder):
    os.makedirs(folder + "/here")
    for words, path in ((("--store", "data"), "here/data"), (("--store", "../there"), "there"), (("--store", folder + "/third"), "third"), ((), "here/store")):
        assert call(folder + "/here", "pipe", *words, data=send(0, b"hi"))[0] == 0
        assert os.path.exists(f"{folder}/{path}/commitlog/00000000000000000000"), path
    assert sorted(os.listdir(folder)) == ["here", "there", "third"] and sorted(os.listdir(folder + "/here")) == ["data", "store"]


@check("bytes that are no frame are status 2 with their place, and a closed standard output is status 4")
def _(folder):
    first = send(0, b"hi")
    status, _, line = line_of(folder, "pipe", data=first + b"\0\0\0\3")
    assert status == 2 and f"at byte {len(first)} " in line, line
    read, write = os.pipe()
    os.close(read)
    done = subprocess.run([PROGRAM, "pipe"], input=first, cwd=folder, stdout=write, stderr=subprocess.PIPE, timeout=60,
                          preexec_fn=lambda: signal.signal(signal.SIGPIPE, signal.SIG_IGN))
    os.close(write)
    assert done.returncode == 4 and b"standard output failed (status 4)" in done.stderr, done.stderr


@check("standard input that can't be read is status 3")
def _(folder):
    at = os.open(folder, os.O_RDONLY)
    done = subprocess.run([PROGRAM, "pipe"], stdin=at, cwd=folder, stdout=subprocess.PIPE, stderr=subprocess.PIPE, timeout=60)
    os.close(at)
    assert done.returncode == 3 and b"standard input failed (status 3)" in done.stderr, (done.returncode, done.stderr)


@check("a store that another process has, and a disk that is full, are status 5")
def _(folder):
    first = subprocess.Popen([PROGRAM, "pipe"], stdin=subprocess.PIPE, stdout=subprocess.PIPE, cwd=folder)
    first.stdin.write(send(0, b"hi"))
    first.stdin.flush()
    assert first.stdout.read(4)
    status, _, line = line_of(folder, "pipe")
    assert status == 5 and "store" in line, line
    first.communicate()

    def small_files():
        signal.signal(signal.SIGXFSZ, signal.SIG_IGN)
        resource.setrlimit(resource.RLIMIT_FSIZE, (1024, resource.RLIM_INFINITY))
    status, _, line = line_of(folder, "pipe", data=send(0, b"x" * 9000), preexec_fn=small_files)
    assert status == 5 and "the disk failed" in line, line


@check("a foreign store is status 6 with the path of what shows it")
def _(folder):
    os.makedirs(folder + "/store")
    open(folder + "/store/x", "w").close()
    status, _, line = line_of(folder, "pipe")
    assert status == 6 and "store/x " in line, line
    os.remove(folder + "/store/x")
    assert call(folder, "pipe", "--segment", "4096")[0] == 0
    status, _, line = line_of(folder, "pipe", "--segment", "8192")
    assert status == 6 and "store/config/format " in line, line


@check("damage is status 8 with the file's path and the place")
def _(folder):
    assert call(folder, "pipe", "--segment", "4096", data=b"".join(send(k, b"x" * 3000) for k in range(3)))[0] == 0
    with open(os.path.join(folder, LOG), "r+b") as file:
        file.write(b"\xff" * 64)
    status, _, line = line_of(folder, "pipe")
    assert status == 8 and f"{LOG} is damaged at 0 " in line, line


@check("a kept file that isn't of its form is status 8 with its path")
def _(folder):
    assert call(folder, "pipe", data=send(0, b"hi"))[0] == 0
    open(os.path.join(folder, KEPT), "w").close()
    status, _, line = line_of(folder, "pipe")
    assert status == 8 and f"{KEPT} is damaged " in line, line


@check("serve says what it opens and where it will listen, and how it ended")
def _(folder):
    port = free_port()
    child = subprocess.Popen([PROGRAM, "serve", "--host", f"127.0.0.1:{port}", "--connections", "1"], cwd=folder, stdin=subprocess.DEVNULL,
                             stdout=subprocess.PIPE, stderr=subprocess.PIPE)
    said = child.stderr.readline().decode()
    assert said.startswith(f"mq_broker: opening store store, will serve on 127.0.0.1:{port}") and said.endswith("\n"), said
    end = time.time() + WAIT
    while not is_heard("127.0.0.1", port):
        assert time.time() < end
        time.sleep(0.02)
    out, said = child.communicate(timeout=WAIT)
    assert (child.returncode, out, said) == (0, b"", b"mq_broker: serve ended (status 0)\n"), (child.returncode, out, said)


@check("a port in use is status 10 with the address")
def _(folder):
    with socket.socket() as door:
        door.bind(("127.0.0.1", 0))
        door.listen()
        port = door.getsockname()[1]
        status, out, said = call(folder, "serve", "--host", f"127.0.0.1:{port}")
        last = said.splitlines()[-1]
        assert (status, out) == (10, b"") and f"127.0.0.1:{port} (status 10): " in last, said


@check("serve listens at the address of --host alone, or at that of --listen, and 0.0.0.0 is every address")
def _(folder):
    port = free_port()
    with Serving(folder, "--host", f"127.0.0.1:{port}", port=port):
        assert not is_heard("127.0.0.2", port)
    port, other = free_port(), free_port()
    with Serving(folder, "--host", f"127.0.0.1:{other}", "--listen", f"127.0.0.2:{port}", at="127.0.0.2", port=port):
        assert not is_heard("127.0.0.1", port) and not is_heard("127.0.0.1", other)
    with Serving(folder, "--listen", f"0.0.0.0:{port}", port=port):
        assert is_heard("127.0.0.2", port)


@check("message ids name the host, wherever it listens")
def _(folder):
    port = free_port()
    with Serving(folder, "--host", "10.1.2.3:99", "--listen", f"127.0.0.1:{port}", port=port):
        with socket.create_connection(("127.0.0.1", port), WAIT) as link:
            link.sendall(send(0, b"hi"))
            assert b"0A01020300000063" in link.recv(1 << 16)
    status, out = run(send(0, b"hi"), folder, ("pipe", "--host", "10.1.2.3:99"))
    assert status == 0 and b"0A01020300000063" in out
