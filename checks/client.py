#!/usr/bin/env python3
"""Uses the real program through the client of clients/python: checks/client.py PROGRAM [--seconds N].

First come the client's own tests, which need no broker, then checks of single calls, the commands of examples/tour.md
and of the README with what they print, and at last a soak of N seconds (default: 20) in which the broker is killed
twice. Each check prints its name; the first that fails ends it.
"""
import logging
import os
import re
import shlex
import socket
import subprocess
import sys
import threading
import time

from clocked import Clock, is_clock_taken
from killed_broker import CLIENT, HERE, WAIT, Broker, free_port, until  # it also has the client found
from mq_client import (Admin, BrokerError, BrokerUnavailable, ClientError, Connection, Consumer, Decision, Form, HalfName,
                       NotSupported, Producer, ProtocolError, SendUnknown, TopicNotFound, TransactionProducer)
from wire import PROGRAM, check

TOUR = os.path.join(HERE, "..", "examples", "tour.md")
README = os.path.join(HERE, "..", "README.md")
SECONDS = float(sys.argv[sys.argv.index("--seconds") + 1]) if "--seconds" in sys.argv else 20.0
logging.disable(logging.WARNING)  # that a consumer lost its broker is what is checked here


@check("the client's own tests hold, without a broker")
def _(folder):
    names = sorted(name[:-3] for name in os.listdir(os.path.join(CLIENT, "tests")) if name.startswith("test_"))
    folders = [os.path.abspath(CLIENT), os.path.abspath(os.path.join(CLIENT, "tests"))]
    environment = {**os.environ, "PYTHONPATH": os.pathsep.join(folders)}
    tests = [subprocess.Popen([sys.executable, "-m", "unittest", "-q", name], env=environment, stdout=subprocess.PIPE,
                              stderr=subprocess.STDOUT, text=True) for name in names]
    for name, test in zip(names, tests):
        said, _ = test.communicate(timeout=300)
        assert test.returncode == 0, f"{name}\n{said}"
    assert len(names) >= 5, names


@check("the package is built without a network, and what is built runs")
def _(folder):
    build = "import sys; from wheel_backend import *; print(build_wheel(sys.argv[1]), build_sdist(sys.argv[1]))"
    done = subprocess.run([sys.executable, "-B", "-c", build, folder], cwd=CLIENT, stdout=subprocess.PIPE, check=True,
                          text=True)
    wheel, sources = done.stdout.split()
    assert {wheel, sources} == set(os.listdir(folder)), os.listdir(folder)
    environment = {**os.environ, "PYTHONPATH": os.path.join(folder, wheel)}
    done = subprocess.run([sys.executable, "-m", "mq_client", "--version"], cwd=folder, env=environment,
                          stdout=subprocess.PIPE, check=True, text=True)
    assert wheel.startswith(done.stdout.strip().replace(" ", "-") + "-"), (wheel, done.stdout)


@check("what is sent is consumed with its tags, keys and properties, in both forms of headers")
def _(folder):
    with Broker(folder) as broker:
        for form in Form:
            with Connection(broker.address, form=form) as connection:
                producer, topic = Producer(connection, "P", queues=3), f"T{form.name}"
                sent = [producer.send(topic, b"body %d" % k, tags="AB"[k % 2], keys=["k", str(k)],
                                      properties={"x": "\u00e4"}) for k in range(9)]
                assert [(one.queue, one.queue_offset) for one in sent] == [(k % 3, k // 3) for k in range(9)]
                with Consumer(connection, "C", {topic: "B"}) as consumer:
                    found = sorted(consumer.messages(count=4, idle=WAIT), key=lambda one: one.body)
                assert len(found) == 4, found
                for k, one in zip((1, 3, 5, 7), found):
                    assert (one.body, one.tags, one.keys) == (b"body %d" % k, "B", ("k", str(k))), one
                    assert (one.message_id, one.unique_key) == (sent[k].message_id, sent[k].unique_key), one
                    assert one.properties["x"] == "\u00e4", one


@check("the example of the client's README runs")
def _(folder):
    code = re.search(r"^```python\n(.*?)^```", open(os.path.join(CLIENT, "README.md")).read(), re.MULTILINE | re.DOTALL)
    with Broker(folder) as broker:
        example = code.group(1).replace("127.0.0.1:10911", broker.address)
        done = subprocess.run([sys.executable, "-c", example], timeout=60, stdout=subprocess.PIPE, text=True,
                              env={**os.environ, "PYTHONPATH": os.path.abspath(CLIENT)})
    said = done.stdout.splitlines()
    assert done.returncode == 0 and said[0].startswith("on the broker's disk: queue 0, offset 0, id 7F000001"), said
    assert said[1] == "10 more" and sorted(said[2:])[0] == "0 0 three apples" and len(said) == 13, said


@check("topics, offsets and times are answered, and refusals have their code")
def _(folder):
    with Broker(folder) as broker, Connection(broker.address) as connection:
        admin, producer = Admin(connection), Producer(connection)
        for count in (1, 5, 8, 1024):
            admin.create_topic(f"Q{count}", count)
            assert admin.queue_count(f"Q{count}") == count
        assert admin.queue_count("None") is None
        for k in range(3):
            producer.send("Q1", str(k))
        until(lambda: admin.max_offset("Q1", 0) == 3, "the messages aren't seen")
        first = admin.pull("Q1", 0, 0, most=2)
        assert [one.text() for one in first.messages] == ["0", "1"], first
        assert (first.next_offset, first.min_offset, first.max_offset) == (2, 0, 3), first
        assert admin.search_offset("Q1", 0, first.messages[1].store_time) in (0, 1)
        assert admin.search_offset("Q1", 0, 2 ** 61) == 3 and admin.min_offset("Q1", 0) == 0
        assert admin.consumer_offset("G", "Q1", 0) is None
        admin.set_consumer_offset("G", "Q1", 0, 2)
        assert admin.consumer_offset("G", "Q1", 0) == 2
        rows = [(lambda: admin.max_offset("None", 0), TopicNotFound, 17),
                (lambda: admin.max_offset("Q1", 1), ClientError, 1),
                (lambda: producer.send("a b", "x", queue=0), ClientError, 13),
                (lambda: producer.send("SCHEDULE_TOPIC_XXXX", "x", queue=0), ClientError, 16)]
        for call, kind, code in rows:
            try:
                call()
            except kind as fault:
                assert fault.code == code and fault.remark, fault
            else:
                raise AssertionError(f"no reply with code {code} came")


class Commits:
    """Decides for every transaction."""

    def execute(self, message, argument):
        return Decision.COMMIT

    def check(self, message):
        return Decision.COMMIT


def transaction(connection):
    with TransactionProducer(connection, "G", Commits()) as producer:
        assert producer.send_in_transaction("T", "x").fault is None


def remark_of(call):
    """The remark with which the broker refuses this."""
    try:
        call()
    except BrokerError as fault:
        return fault.remark
    raise AssertionError("it isn't refused")


@check("half messages that are committed are consumed and others not, over a kill too; another decision is refused")
def _(folder):
    with Broker(folder) as broker, Connection(broker.address) as connection, \
            TransactionProducer(connection, "G") as producer:
        halves = [producer.send_half("T", str(k), tags="A", queue=0) for k in range(6)]
        for half, decision in zip(halves, (Decision.COMMIT, Decision.ROLLBACK, Decision.UNKNOWN)):
            producer.end_transaction(half, decision)
        broker.kill()
        broker.start()
        names = [HalfName.read(str(HalfName.of(half))) for half in halves]
        for half, decision in zip(names[3:], (Decision.COMMIT, Decision.ROLLBACK, Decision.UNKNOWN)):
            producer.end_transaction(half, decision)
        for half in names[::3]:
            producer.end_transaction(half, Decision.COMMIT)
        refused = [remark_of(lambda: producer.end_transaction(names[0], Decision.ROLLBACK)),
                   remark_of(lambda: producer.end_transaction(names[1], Decision.COMMIT)),
                   remark_of(lambda: producer.end_transaction(HalfName(6, names[5].message_id), Decision.COMMIT)),
                   remark_of(lambda: producer.end_transaction(HalfName(2, names[2].message_id, "x"), Decision.COMMIT))]
        assert refused == ["settled committed", "settled rolledback", "half", "half"], refused
        with TransactionProducer(broker.address, "other") as other:
            assert remark_of(lambda: other.end_transaction(names[2], Decision.COMMIT)) == "half"
        with Consumer(connection, "C", "T") as consumer:
            found = list(consumer.messages(count=2, idle=WAIT))
            assert [(one.text(), one.tags, one.unique_key) for one in found] == [
                (str(k), "A", halves[k].unique_key) for k in (0, 3)], found
            assert consumer.poll(0.5) is None


def heard_once(producer, clock, wanted):
    """The check-backs that come once the clock is moved on: as many as wanted."""
    time.sleep(1.5)  # by then a heartbeat has told who is there
    clock.set(clock.now + 60000)
    found = list(producer.checks(count=wanted, idle=WAIT))
    assert len(found) == wanted, found
    return found


@check("pipe is asked by the client too, and its check-backs are answered; a listener answers them by itself")
def _(folder):
    if not is_clock_taken():
        return print("    skipped: there is no cc, or the program takes no clock of a library")
    clock = Clock(folder)
    words = ["env", *(f"{name}={clock.words()[name]}" for name in ("LD_PRELOAD", "SET_CLOCK")), PROGRAM, "pipe"]
    pipe = "pipe:" + shlex.join([*words, "--store", os.path.join(folder, "store")])
    with Connection(pipe) as connection:
        with TransactionProducer(connection, "G") as producer:
            halves = [producer.send_half("T", str(k), queue=0) for k in range(3)]
            asked = heard_once(producer, clock, 3)
            assert [(one.message.topic, one.message.text(), one.unique_key) for one in asked] == [
                ("T", str(k), half.unique_key) for k, half in enumerate(halves)], asked
            for one, decision in zip(asked, (Decision.UNKNOWN, Decision.COMMIT, Decision.ROLLBACK)):
                producer.end_transaction(one, decision)
            assert [one.message.text() for one in heard_once(producer, clock, 1)] == ["0"]
        with TransactionProducer(connection, "G", Commits()):
            time.sleep(1.5)
            clock.set(clock.now + 60000)
            until(lambda: Admin(connection).max_offset("T", 0) == 2, "the listener's answer isn't taken")
        with TransactionProducer(connection, "G") as producer:
            assert remark_of(lambda: producer.end_transaction(halves[0], Decision.ROLLBACK)) == "settled committed"
    with Connection(pipe) as again:
        assert [one.text() for one in Admin(again).pull("T", 0, 0).messages] == ["1", "0"]


def has_key(admin):
    until(lambda: [one.body for one in admin.query("T", "k")] == [b"hi"], "the message isn't found by its key")


@check("what the broker doesn't serve is reported as such, and what it serves works")
def _(folder):
    missing = []
    with Broker(folder) as broker, Connection(broker.address) as connection:
        admin, producer = Admin(connection), Producer(connection)
        sent = producer.send("T", "hi", keys="k")
        with Consumer(connection, "C", "T") as consumer:
            message = consumer.poll(WAIT)
            assert message.body == b"hi", message
            transaction(connection)
            producer.send("T", "x", delay_level=1)
            has_key(admin)
            assert admin.view(sent.message_id).body == b"hi"
            rows = [("batches", lambda: producer.send_batch("T", ["x", "y"])),
                    ("sending back", lambda: consumer.send_back(message))]
            for name, call in rows:
                try:
                    call()
                except NotSupported as fault:
                    assert fault.code == 3, fault
                    missing.append(name)
    if missing:
        print("    not served:", ", ".join(missing))


@check("a broker that is gone, and a port that speaks something else, are reported in time")
def _(folder):
    with Broker(folder) as broker, Connection(broker.address, timeout=1.0) as connection:
        Producer(connection).send("T", "x")
        broker.kill()
        for call in (lambda: Producer(connection).send("T", "x"), lambda: Admin(connection).max_offset("T", 0),
                     lambda: Consumer(connection, "C", "T")):
            began = time.time()
            try:
                call()
            except (BrokerUnavailable, SendUnknown):
                assert time.time() - began < 2
            else:
                raise AssertionError("a broker that was killed answers")
    with socket.create_server(("127.0.0.1", 0)) as door:
        def answer():
            stream, _ = door.accept()
            with stream:
                stream.recv(100)
                stream.sendall(b"HTTP/1.1 400 Bad Request\r\n\r\n")
        threading.Thread(target=answer, daemon=True).start()
        with Connection("127.0.0.1:%d" % door.getsockname()[1]) as connection:
            try:
                Admin(connection).max_offset("T", 0)
            except ProtocolError as fault:
                assert "HTTP" in str(fault), fault
            else:
                raise AssertionError("a web server was taken for a broker")


@check("a consumer that ends is followed by one that waited for its lock and continues at its offset")
def _(folder):
    with Broker(folder) as broker, Connection(broker.address) as connection:
        producer = Producer(connection, queues=1)
        for k in range(20):
            producer.send("T", str(k))
        with Consumer(broker.address, "G", "T", ordered=True) as first, \
                Consumer(broker.address, "G", "T", ordered=True) as second:
            mine = [one.text() for one in first.messages(count=10, idle=WAIT)]
            assert second.poll(0.5) is None and (len(first.owned()), len(second.owned())) == (1, 0)
            first.close()
            theirs = [one.text() for one in second.messages(count=10, idle=WAIT)]
        assert mine + theirs == [str(k) for k in range(20)], (mine, theirs)


@check("each command of the shell has help, and ends with status 0 or 1 and says why")
def _(folder):
    def run(*arguments, address="127.0.0.1:1"):
        done = subprocess.run([sys.executable, "-m", "mq_client", "--broker", address, "--timeout", "1", *arguments],
                              env={**os.environ, "PYTHONPATH": os.path.abspath(CLIENT)}, cwd=folder,
                              stdin=subprocess.DEVNULL,
                              stdout=subprocess.PIPE, stderr=subprocess.PIPE, timeout=60, text=True)
        return done.returncode, done.stdout.splitlines(), done.stderr.splitlines()
    for command in ("send", "pull", "consume", "transaction", "commit", "rollback", "check", "delay", "query", "view",
                    "topics", "offsets"):
        status, said, _ = run(command, "--help")
        assert status == 0 and said[0].startswith(f"usage: mq_client {command}"), (command, said)
        status, said, complaint = run(command, *(["--count", "x"] if command == "check" else []))
        assert (status, said) == (1, []) and re.search("required|invalid", complaint[-1]), (command, complaint)
    for arguments in (("send", "T", "x"), ("topics", "T"), ("consume", "T"), ("view", "F" * 32)):
        status, said, complaint = run(*arguments)
        assert (status, said) == (1, []) and "no broker at 127.0.0.1:1" in complaint[-1], (arguments, complaint)
    with Broker(folder) as broker:
        assert run("send", "T", "x", "y", "--tags", "A", "--property", "a=b", address=broker.address)[0] == 0
        wanted = (0, ["T, queue 0, offset 0: 'x'"], [])
        until(lambda: run("pull", "T", address=broker.address) == wanted, "nothing is pulled")
        assert run("offsets", "T", "--reset", "last", address=broker.address)[0] == 0
        for arguments in (("topics", "None"), ("view", "x"), ("send", "T", "x", "--property", "a"),
                          ("pull", "T", "--queue", "9")):
            status, said, complaint = run(*arguments, address=broker.address)
            assert (status, said) == (1, []) and complaint[-1].startswith("mq_client: "), (arguments, complaint)


def steps_of(path):
    """The commands of a document, each with the lines that it prints."""
    found = []
    for block in re.findall(r"^```console\n(.*?)^```", open(path).read(), re.MULTILINE | re.DOTALL):
        for line in block.splitlines():
            if line.startswith("$ "):
                found.append((line[2:], []))
            else:
                found[-1][1].append(line)
    return found


def printed(folder, commands):
    """What these commands of one shell print, each some lines."""
    bin_folder = os.path.join(folder, "bin")
    os.mkdir(bin_folder)
    with open(os.path.join(bin_folder, "mq_broker"), "w") as file:
        file.write(f"#!/bin/sh\nexec {shlex.quote(PROGRAM)} \"$@\"\n")
    os.chmod(file.name, 0o755)
    os.symlink(sys.executable, os.path.join(bin_folder, "python3"))
    script = "trap 'kill -9 $broker 2>/dev/null' EXIT\n"
    script += "".join(f"echo '@@ {k}'\n{command}\n" for k, command in enumerate(commands))
    environment = {**os.environ, "PATH": bin_folder + os.pathsep + os.environ["PATH"],
                   "PYTHONPATH": os.path.abspath(CLIENT), "MQ_BROKER": f"127.0.0.1:{free_port()}"}
    with open(os.path.join(folder, "said"), "w+") as said:
        subprocess.run(["bash", "-c", script], cwd=folder, env=environment, stdin=subprocess.DEVNULL, stdout=said,
                       stderr=subprocess.STDOUT, timeout=240)
        said.seek(0)
        parts = re.split(r"^@@ \d+\n", said.read(), flags=re.MULTILINE)[1:]
    assert len(parts) == len(commands), parts
    return [[line for line in part.splitlines() if not re.search(r"Killed +mq_broker", line)] for part in parts]


def matches(wanted, line):
    """Whether the line is the wanted one, in which `...` is any text."""
    return re.fullmatch(".*".join(re.escape(part) for part in wanted.split("...")), line) is not None


@check("the tour's commands print what it says")
def _(folder):
    steps = steps_of(TOUR)
    for (command, wanted), lines in zip(steps, printed(folder, [command for command, _ in steps])):
        is_so = len(lines) == len(wanted) and all(map(matches, wanted, lines))
        assert is_so, f"$ {command}\nshould print {wanted}\nand prints   {lines}"


def try_readme(folder, broker):
    """Runs the commands of the README with this as the broker's name; messages of two topics come in any order."""
    os.mkdir(folder)
    steps = steps_of(README)
    assert len(steps) > 4 and steps[0][0].startswith("export MQ_BROKER=127.0.0.1:10911 "), steps
    commands = [command.replace("127.0.0.1:10911", shlex.quote(broker)).replace("$PWD/clients/python", os.path.abspath(CLIENT))
                for command, _ in steps]
    if broker.startswith("pipe:"):
        commands = ["true" if command.startswith("mq_broker serve") else command for command in commands]
    for (command, wanted), lines in zip(steps, printed(folder, commands)):
        wanted = sorted(line.replace("2A9F", "...") for line in wanted)  # the port, which another one stands for here
        is_so = len(lines) == len(wanted) and all(map(matches, wanted, sorted(lines)))
        assert is_so, f"$ {command}\nshould print {wanted}\nand prints   {lines}"


@check("the commands of the README print what it says, over TCP and over a pipe")
def _(folder):
    try_readme(os.path.join(folder, "serve"), f"127.0.0.1:{free_port()}")
    try_readme(os.path.join(folder, "pipe"), "pipe:mq_broker pipe")


class Soak:
    """Four producers and four consumers on one broker; what was sent, stored and consumed."""

    def __init__(self, address):
        self.address = address
        self.guard = threading.Lock()
        self.tried, self.stored, self.unknown, self.unsent = set(), {}, 0, 0
        self.seen = [[] for _ in range(4)]
        self.faults = []
        self.sending, self.consuming = threading.Event(), threading.Event()
        self.sending.set()
        self.consuming.set()

    def threads(self, run):
        threads = [threading.Thread(target=self.guarded, args=(run, k)) for k in range(4)]
        for thread in threads:
            thread.start()
        return threads

    def guarded(self, run, number):
        try:
            run(number)
        except Exception as fault:  # it is raised again by `one_soak`
            self.faults.append(fault)

    def produce(self, number):
        """Producers 0 and 1 wait for each reply, 2 and 3 have sixteen sends under way."""
        with Connection(self.address) as connection:
            producer, count, window = Producer(connection, f"P{number}"), 0, []
            while self.sending.is_set():
                body = b"%d %d" % (number, count)
                count += 1
                with self.guard:
                    self.tried.add(body)
                try:
                    window.append((body, producer.send_async("Soak", body)))
                except BrokerUnavailable:
                    self.unsent += 1
                while window and len(window) >= (1 if number < 2 else 16):
                    self.settle(*window.pop(0))
                time.sleep(0.002)
            for body, future in window:
                self.settle(body, future)

    def settle(self, body, future):
        try:
            result = future.result(WAIT)
        except SendUnknown:
            self.unknown += 1
            return
        with self.guard:
            where = (result.queue, result.queue_offset)
            assert where not in self.stored, f"two messages are stored at {where}"
            self.stored[where] = body

    def consume(self, number):
        with Consumer(self.address, "G", "Soak", ordered=True, max_queues=2) as consumer:
            while self.consuming.is_set():
                message = consumer.poll(0.2)
                if message is not None:
                    self.seen[number].append((message.queue, message.queue_offset, message.body))
                    consumer.done(message)

    def missing(self):
        """What was stored and not consumed."""
        with self.guard:
            stored = dict(self.stored)
        found = {(queue, offset): body for seen in self.seen for queue, offset, body in list(seen)}
        return {where: body for where, body in stored.items() if found.get(where) != body}


def one_soak(broker):
    with Connection(broker.address) as connection:
        Admin(connection).create_topic("Soak", 8)
    soak = Soak(broker.address)
    consumers, producers = soak.threads(soak.consume), soak.threads(soak.produce)
    for _ in range(2):
        time.sleep(SECONDS / 3)
        broker.kill()
        time.sleep(0.5)
        broker.start()
    time.sleep(SECONDS / 3)
    soak.sending.clear()
    for thread in producers:
        thread.join(WAIT)
    until(lambda: not soak.missing() or soak.faults,
          lambda: f"of {len(soak.stored)} stored messages {len(soak.missing())} aren't consumed")
    soak.consuming.clear()
    for thread in consumers:
        thread.join(WAIT)
    if soak.faults:
        raise soak.faults[0]
    return soak


@check(f"in a soak of {SECONDS:g} s with two kills each message that was answered is consumed, in its queue's order")
def _(folder):
    with Broker(folder) as broker:
        soak = one_soak(broker)
    consumed = [one for seen in soak.seen for one in seen]
    assert all(body in soak.tried for _, _, body in consumed), "a message is consumed that nobody sent"
    for number, seen in enumerate(soak.seen):
        last = {}
        for queue, offset, _ in seen:
            before = last.get(queue, -1)
            assert offset > before, f"consumer {number} gets offset {offset} of queue {queue} after {before}"
            last[queue] = offset
    count = len(soak.stored)
    assert count > SECONDS and soak.unknown + soak.unsent > 0, (count, soak.unknown, soak.unsent)
    print(f"    {count} messages answered, {soak.unknown} unknown, {soak.unsent} unsent, {len(consumed)} consumed")
