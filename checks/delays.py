#!/usr/bin/env python3
"""Delayed messages of the real program, with a clock that stands still until a check sets it: checks/delays.py PROGRAM.

set_clock.c is that clock, so that two hours pass at once. What is on the disk is compared with what was sent, read by code of its
own. A thousand delayed messages go through runs that are killed at random moments: each is delivered once, in order, at the first
request from its time on. Each check prints its name; the first that fails ends it.
"""
import collections
import os
import random
import resource
import signal
import subprocess
import sys
import time

from clocked import FIRST, Clock, Pipe, Serve, answers, greatest, is_clock_taken, pairs_of, pulled_all, run, said_of
from wire import PROGRAM, SYSTEM_TOPICS, all_replies, check, crash, properties, pull, pulled, records, send

LEVEL_TOPIC = SYSTEM_TOPICS[0]
DELAYS = [1000 * seconds for seconds in (1, 5, 10, 30, 60, 120, 180, 240, 300, 360, 420, 480, 540, 600, 1200, 1800, 3600, 7200)]


def delayed(opaque, body, delay, more=(), **fields):
    """A send with the property DELAY and perhaps `more`."""
    return send(opaque, body, properties=properties([("DELAY", delay), *more]), **fields)


def is_delivery(r):
    return "DELAY_FROM" in dict(pairs_of(r["props"]))


def delivery_of(item):
    """What the record of this delayed message's delivery has, its place and times apart."""
    pairs = pairs_of(item["props"])
    kept = [pair for pair in pairs if pair[0] not in ("DELAY", "REAL_TOPIC", "REAL_QID")]
    return {**said_of(item), "topic": dict(pairs)["REAL_TOPIC"], "queue": int(dict(pairs)["REAL_QID"]),
            "props": properties([*kept, ("DELAY_FROM", f"{item['queue'] + 1}-{item['queue_offset']}")])}


def follow(log):
    """Goes over a log by the rule: before each other record all is delivered that is due by then, the lowest level first and each in
    order. Answers what still waits, level by level."""
    waiting, numbers, last = [collections.deque() for _ in DELAYS], [0] * len(DELAYS), 0
    for r in log:
        assert r["store"] >= last, r
        last = r["store"]
        due = [level for level, items in enumerate(waiting) if items and items[0]["store"] + DELAYS[level] <= last]
        if not is_delivery(r):
            assert not due, ("not delivered in time", waiting[due[0]][0], r)
        else:
            assert due, ("delivered before its time, or again", r)
            assert said_of(r) == delivery_of(waiting[due[0]].popleft()), r
        if r["topic"] == LEVEL_TOPIC:
            assert r["queue_offset"] == numbers[r["queue"]], r
            numbers[r["queue"]] += 1
            waiting[r["queue"]].append(r)
    return waiting


def delivered(folder):
    return [r for r in records(folder) if is_delivery(r)]


if not is_clock_taken():
    print("skipped: there is no cc, or the program takes no clock of a library")
    sys.exit(0)


@check("a delayed message is kept at its level, and its reply tells the queue that it is for and its number in the level")
def _(folder):
    clock, rows = Clock(folder), []
    for level in range(1, 19):
        rows.append((str(level), level))
    rows += [("19", 18), ("100", 18), ("007", 7), ("9223372036854775807", 18)]
    forms = [(binary, short) for binary in (False, True) for short in (False, True)]
    data = b"".join(delayed(k, b"%d" % k, text, [("A", "x")], binary=forms[k % 4][0], short=forms[k % 4][1], queueId=str(k % 4))
                    for k, (text, _) in enumerate(rows))
    numbers = collections.Counter()
    for k, (reply, r, (text, level)) in enumerate(zip(answers(folder, clock, data), records(folder), rows, strict=True)):
        assert (reply["code"], reply["extFields"]) == (0, {"msgId": "7F00000100002A9F%016X" % r["place"], "queueId": str(k % 4),
                                                           "queueOffset": str(numbers[level])}), (text, reply)
        assert (r["topic"], r["queue"], r["queue_offset"], r["body"]) == (LEVEL_TOPIC, level - 1, numbers[level], b"%d" % k), r
        assert pairs_of(r["props"]) == [("DELAY", text), ("A", "x"), ("REAL_TOPIC", "T"), ("REAL_QID", str(k % 4))], r
        numbers[level] += 1


@check("a DELAY that isn't a decimal from 1 on delays nothing and stays a property; names of the broker's own are dropped")
def _(folder):
    clock = Clock(folder)
    texts = ["0", "-0", "-1", "+1", "", "x", "1x", " 1", "1.0", "1e1", "0x1", "\u0661", "9223372036854775808", "9" * 40, "-" + "9" * 40]
    told = answers(folder, clock, b"".join(delayed(k, b"", text, binary=k % 2 == 1) for k, text in enumerate(texts)))
    assert [(r["code"], r["extFields"]["queueOffset"]) for r in told] == [(0, str(k)) for k in range(len(texts))], told
    assert [(r["topic"], r["props"]) for r in records(folder)] == [("T", properties([("DELAY", text)])) for text in texts]
    own = [("REAL_TOPIC", "U"), ("REAL_QID", "7"), ("DELAY_FROM", "1-0"), ("B", "y")]
    answers(folder, clock, delayed(0, b"", "1", own) + send(1, b"", properties=properties(own)))
    assert [r["props"] for r in records(folder)[-2:]] == [properties([("DELAY", "1"), ("B", "y"), ("REAL_TOPIC", "T"), ("REAL_QID", "0")]),
                                                          properties([("B", "y")])]
    clock.set(10 ** 9)
    answers(folder, clock)
    assert [(r["topic"], r["props"]) for r in delivered(folder)] == [("T", properties([("B", "y"), ("DELAY_FROM", "1-0")]))]


@check("a delayed send is refused as another is, and takes no place, also where it is a half message")
def _(folder):
    half = [("TRAN_MSG", "true")]
    rows = [({"topic": "a b"}, 13, "topic"), ({"sysFlag": "16"}, 13, "sysFlag"), ({"topic": LEVEL_TOPIC}, 16, "system topic"),
            ({"defaultTopic": ""}, 17, "no topic"), ({"queueId": "4"}, 1, "queue"), ({"queueId": "x"}, 1, "field queueId"),
            ({"more": [("A", "x" * 32000)]}, 13, "properties"), ({"more": half, "topic": "a b"}, 13, "topic"),
            ({"sysFlag": "4", "queueId": "4"}, 1, "queue")]
    clock = Clock(folder)
    told = answers(folder, clock, b"".join(delayed(k, b"", "1", **fields) for k, (fields, _, _) in enumerate(rows))
                   + delayed(20, b"x" * 4194305, "1") + pull(21, LEVEL_TOPIC, 0) + greatest(22, LEVEL_TOPIC, 18))
    wanted = [(code, remark) for _, code, remark in rows] + [(13, "body"), (16, "system topic"), (1, "queue")]
    assert [(r["code"], r.get("remark")) for r in told] == wanted, told
    assert records(folder) == []


@check("a message of 158 bytes is delivered as one of 123 at the first request from its time on, and no second time")
def _(folder):
    clock = Clock(folder, 1000)
    with Pipe(folder, clock) as pipe:
        reply = pipe.ask(delayed(0, b"hi", "1"))
        assert (reply["code"], reply["extFields"]["queueId"], reply["extFields"]["queueOffset"]) == (0, "0", "0"), reply
        asked = pipe.ask(greatest(1, LEVEL_TOPIC)), pipe.ask(greatest(2, "T"))
        assert [r["extFields"]["offset"] for r in asked] == ["1", "0"], asked
        clock.set(1999)
        assert pipe.ask(pull(3, "T", 0))["code"] == 19
        clock.set(2000)
        found = pulled(pipe.ask(pull(4, "T", 0))["body"])
        assert [(r["place"], r["size"], r["body"], pairs_of(r["props"])) for r in found] == [(158, 123, b"hi", [("DELAY_FROM", "1-0")])], found
        assert pipe.ask(pull(5, "T", 1))["code"] == 19
        pipe.end()
    clock.set(5000)
    assert answers(folder, clock, pull(0, "T", 1))[0]["code"] == 19
    assert [(r["topic"], r["place"], r["size"]) for r in records(folder)] == [(LEVEL_TOPIC, 0, 158), ("T", 158, 123)]


def in_turn(clock, ask):
    """Sends a message of each level, the longest delay first, and looks for each a millisecond before its time and at it."""
    for level in reversed(range(18)):
        ask(delayed(0, b"%d" % (level + 1), str(level + 1)))
    began = clock.now
    for level, delay in enumerate(DELAYS):
        clock.set(began + delay - 1)
        assert ask(pull(0, "T", level))["code"] == 19, level + 1
        clock.set(began + delay)
        found = ask(pull(0, "T", level))
        assert [r["body"] for r in pulled(found["body"])] == [b"%d" % (level + 1)], (level + 1, found)


@check("the message of each level comes at its time and not a millisecond before, in one run")
def _(folder):
    clock = Clock(folder, 10 ** 12)
    with Pipe(folder, clock) as pipe:
        in_turn(clock, pipe.ask)
        pipe.end()
    assert not any(follow(records(folder)))


@check("the same where each request has a run of its own")
def _(folder):
    clock = Clock(folder, 10 ** 12)
    in_turn(clock, lambda data: answers(folder, clock, data)[0])
    assert not any(follow(records(folder)))


@check("of what is due at once the lowest level comes first, and each level in order; other messages keep their places between")
def _(folder):
    clock = Clock(folder)
    told = answers(folder, clock, b"".join(delayed(k, b"%d" % k, "321"[k % 3], topic="TU"[k % 2]) for k in range(12)) + send(12, b"plain"))
    assert [r["code"] for r in told] == [0] * 13
    clock.set(11000)
    found = pulled(answers(folder, clock, pull(0, "T", 0))[0]["body"])
    assert [r["body"] for r in found] == [b"plain"] + [b"%d" % k for k in (2, 8, 4, 10, 0, 6)], found
    assert [r["body"] for r in delivered(folder)] == [b"%d" % k for k in (2, 5, 8, 11, 1, 4, 7, 10, 0, 3, 6, 9)]


@check("a clock that goes back delivers nothing early, also over a restart")
def _(folder):
    clock = Clock(folder, 100000)
    with Pipe(folder, clock) as pipe:
        pipe.ask(delayed(0, b"", "1"))
        for now, code in ((0, 19), (100999, 19), (50000, 19), (101000, 0)):
            clock.set(now)
            assert pipe.ask(pull(0, "T", 0))["code"] == code, now
        pipe.ask(delayed(0, b"", "1"))
        pipe.kill()
    for now, code in ((1001, 19), (101999, 19), (102000, 0)):
        clock.set(now)
        assert answers(folder, clock, pull(0, "T", 1))[0]["code"] == code, now
    assert not any(follow(records(folder)))


@check("a send that doesn't wait, a one-way send and one under --flush async are delivered too, and the queue's other messages stay")
def _(folder):
    clock = Clock(folder)
    told = answers(folder, clock, delayed(0, b"a", "1", [("WAIT", "false")]) + delayed(1, b"b", "1", flag=2) + send(2, b"plain"))
    assert [(r["opaque"], r["code"]) for r in told] == [(0, 0), (2, 0)], told
    assert [r["code"] for r in answers(folder, clock, delayed(3, b"c", "1"), ("pipe", "--flush", "async"))] == [0]
    clock.set(2000)
    found = pulled(answers(folder, clock, pull(0, "T", 0), ("pipe", "--flush", "async"))[0]["body"])
    assert [r["body"] for r in found] == [b"plain", b"a", b"b", b"c"], found
    assert pairs_of(found[1]["props"]) == [("WAIT", "false"), ("DELAY_FROM", "1-0")], found


@check("a delivery that a crash cut is made again, and once")
def _(folder):
    clock = Clock(folder)
    answers(folder, clock, delayed(0, b"hi", "1") + delayed(1, b"ho", "1"))
    clock.set(2000)
    answers(folder, clock)
    path = os.path.join(folder, FIRST)
    whole = open(path, "rb").read()
    assert [r["size"] for r in records(folder)] == [158, 158, 123, 123] and len(whole) == 562
    for at in range(316, 562):
        with open(path, "wb") as file:
            file.write(whole[:at])
        crash(folder)
        clock.set(2000 + at)
        answers(folder, clock)
        log = records(folder)
        assert not any(follow(log)) and [r["body"] for r in log] == [b"hi", b"ho"] * 2, at
        assert [r["store"] for r in log[2:]] == ([2000 + at] * 2 if at < 439 else [2000, 2000 + at]), at


@check("deliveries that find the disk full, and the buffer too, wait until it works again; none is lost and none made twice")
def _(folder):
    clock = Clock(folder)
    for first in (0, 8):
        told = answers(folder, clock, b"".join(delayed(k, b"%02d" % k + b"x" * 4194302, "1") for k in range(first, first + 8)))
        assert [r["code"] for r in told] == [0] * 8, told
    room = os.path.getsize(os.path.join(folder, FIRST))

    def no_more():
        signal.signal(signal.SIGXFSZ, signal.SIG_IGN)
        resource.setrlimit(resource.RLIMIT_FSIZE, (room, resource.RLIM_INFINITY))
    clock.set(2000)
    for _ in range(2):
        status, told = run(folder, clock, pull(0, "T", 0), preexec_fn=no_more, stderr=subprocess.DEVNULL)
        assert (status, [r["code"] for r in told]) == (5, [19]) and delivered(folder) == [], (status, told)
    clock.set(3000)
    answers(folder, clock, pull(0, "T", 0) * 2)
    log = records(folder)
    assert not any(follow(log)) and len(log) == 32, len(log)


@check("a topic that only a delayed message names is known after a kill, with the queue that the message is for")
def _(folder):
    clock = Clock(folder)
    with Pipe(folder, clock) as pipe:
        assert pipe.ask(delayed(0, b"", "18", topic="New", queueId="6", defaultTopicQueueNums="8"))["code"] == 0
        pipe.kill()
    told = answers(folder, clock, greatest(0, "New", 6) + greatest(1, "New", 7) + greatest(2, "Newer"))
    assert [r["code"] for r in told] == [0, 1, 17], told


@check("serve delivers nothing before its time, and the next run of pipe delivers what is due")
def _(folder):
    clock = Clock(folder)
    with Serve(folder, clock) as serve:
        told = serve.ask(*(delayed(k, b"%d" % k, str(1 + k % 2)) for k in range(10)))
    assert [r["code"] for r in told] == [0] * 10, told
    clock.set(2000)
    found = pulled(answers(folder, clock, pull(0, "T", 0))[0]["body"])
    assert [r["body"] for r in found] == [b"%d" % k for k in range(0, 10, 2)]
    assert [len(items) for items in follow(records(folder))[:3]] == [0, 5, 0]


class Sent:
    """What a story sends, and what was acknowledged of it: by the number of the message its reply's fields."""

    def __init__(self, chance):
        self.chance, self.messages, self.told = chance, [], {}

    def one(self):
        """The frame of one more message, of which one in five isn't delayed."""
        chance, number = self.chance, len(self.messages)
        pairs = [("DELAY", chance.choice([str(chance.randrange(1, 20)), "%03d" % chance.randrange(1, 30)]))] * (chance.random() < 0.8)
        pairs += [pair for pair in (("TAGS", "A"), ("KEYS", f"k{number} k"), ("x", "\u00e4"), ("WAIT", "false"), ("UNIQ_KEY", f"u{number}"))
                  if chance.random() < 0.3]
        chance.shuffle(pairs)
        said = {"topic": chance.choice(["Tea", "Milk", "Water"]), "queue": chance.randrange(4), "props": properties(pairs),
                "sysflag": chance.choice([0, 1, 3]), "born": chance.randrange(2 ** 40), "reconsume": chance.randrange(3),
                "body": b"%d " % number + chance.randbytes(chance.randrange(400))}
        self.messages.append(said)
        return send(number, said["body"], topic=said["topic"], queueId=str(said["queue"]), sysFlag=str(said["sysflag"]),
                    bornTimestamp=str(said["born"]), reconsumeTimes=str(said["reconsume"]), properties=said["props"],
                    binary=number % 2 == 1, short=number % 3 == 1)

    def hear(self, data):
        for reply in all_replies(data, whole=False):
            assert reply["code"] == 0, reply
            self.told[reply["opaque"]] = reply["extFields"]

    def kept(self, number):
        """The record that the message is kept as."""
        said = self.messages[number]
        delay = int(dict(pairs_of(said["props"])).get("DELAY", 0))
        if delay == 0:
            return said
        real = properties([("REAL_TOPIC", said["topic"]), ("REAL_QID", str(said["queue"]))])
        return {**said, "topic": LEVEL_TOPIC, "queue": min(delay, 18) - 1, "props": said["props"] + real}

    def compare(self, log):
        """Each record is a message that was sent, or a delivery; what was acknowledged is there, as its reply says."""
        stored = {}
        for r in log:
            number = int(r["body"].split(b" ")[0])
            if not is_delivery(r):
                assert number not in stored and said_of(r) == self.kept(number), r
                stored[number] = r
        for number, fields in self.told.items():
            if number in stored:
                r = stored[number]
                assert fields == {"msgId": "7F00000100002A9F%016X" % r["place"], "queueId": str(self.messages[number]["queue"]),
                                  "queueOffset": str(r["queue_offset"])}, (fields, r)
            else:
                assert dict(pairs_of(self.messages[number]["props"])).get("WAIT") == "false", (number, fields)


def killed_run(folder, clock, sent, chance, steps, sends):
    """A run that gets some sends, while the clock moves on, and ends or is killed."""
    child = subprocess.Popen([PROGRAM, "pipe", "--segment", "16384"], stdin=subprocess.PIPE, stdout=subprocess.PIPE, cwd=folder,
                             env=clock.words())
    out = b""
    for _ in range(steps):
        child.stdin.write(b"".join(sent.one() for _ in range(sends)) or pull(0, "Tea", 10 ** 9))
        child.stdin.flush()
        if chance.random() < 0.6:
            out += child.stdout.read(1)
        clock.set(clock.now + int(10 ** chance.uniform(0, 5.8)))
    if chance.random() < 0.7:
        time.sleep(chance.random() * 0.03)
        child.send_signal(signal.SIGKILL)
    else:
        child.stdin.close()
    out += child.stdout.read()
    child.wait(60)
    child.stdout.close()
    return out


@check("a thousand delayed messages through killed runs are each delivered once, in order, at the first request from their time on")
def _(folder):
    chance, clock = random.Random(20261129), Clock(folder, 10 ** 12)
    sent, runs, waited = Sent(chance), 0, 0
    while sum(sent.kept(number)["topic"] == LEVEL_TOPIC for number in sent.told) < 1000:
        runs += 1
        assert runs < 500, len(sent.told)
        sent.hear(killed_run(folder, clock, sent, chance, 4, chance.randrange(1, 12)))
    last = clock.now + DELAYS[-1]
    while clock.now < last:
        runs += 1
        killed_run(folder, clock, sent, chance, 4, 0)
        waited += any(follow(records(folder, whole=False)))
    answers(folder, clock)
    log = records(folder)
    sent.compare(log)
    assert not any(follow(log)) and waited > 3, waited
    found = {(r["topic"], r["queue"], r["queue_offset"]): r for r in pulled_all(folder, clock, ("Tea", "Milk", "Water"))}
    assert sorted(r["place"] for r in found.values()) == [r["place"] for r in log if r["topic"] != LEVEL_TOPIC]
    clock.set(clock.now + 10 ** 9)
    answers(folder, clock)
    assert records(folder) == log
    print(f"    {runs} runs, {len(sent.told)} messages answered, {len(log)} records, {sum(map(is_delivery, log))} of them deliveries")
