#!/usr/bin/env python3
"""Transactions of the real program, with a clock that stands still until a check sets it: checks/transfers.py PROGRAM.

Half messages, verdicts on them and check-backs, each beside what is to come of it by the rules, read from the disk by code of its own.
At last sums are transferred between two accounts through runs that are killed at random moments: the first account pays when its owner
decides, the second gets what a consumer sees. Each check prints its name; the first that fails ends it.
"""
import json
import os
import random
import resource
import signal
import sys
import tempfile
import time

from clocked import FIRST, Clock, Pipe, Serve, answers, greatest, is_clock_taken, pairs_of, pulled_all, said_of
from killed_broker import until
from wire import (COMMIT, ROLLBACK, SYSTEM_TOPICS, UNKNOWN, check, crash, frame, frames_of, half, properties, pull, pulled, records, reply_of,
                  send, told, verdict, where)

HALF_TOPIC, OP_TOPIC, GIVEN_UP_TOPIC = SYSTEM_TOPICS[1:]
OF_TRANSACTION = ("TRAN_MSG", "REAL_TOPIC", "REAL_QID", "TRAN_PREPARED_QUEUE_OFFSET", "TRANSACTION_CHECK_TIMES")
FIRST_CHECK, NEXT_CHECK, MOST_CHECKS = 6000, 60000, 15


def beat(opaque, *groups):
    """A heartbeat of a client that is a producer of these groups."""
    said = {"clientID": "c1", "producerDataSet": [{"groupName": group} for group in groups], "consumerDataSet": []}
    return frame({"code": 34, "extFields": {}, "flag": 0, "opaque": opaque, "version": 395}, json.dumps(said).encode())


def without(pairs, *names):
    return [pair for pair in pairs if pair[0] not in names]


def copy_of(one):
    """What the committed copy of this half message has, its place and times apart."""
    pairs = pairs_of(one["props"])
    return {**said_of(one), "topic": dict(pairs)["REAL_TOPIC"], "queue": int(dict(pairs)["REAL_QID"]), "sysflag": one["sysflag"] | 8,
            "props": properties(without(pairs, *OF_TRANSACTION))}


def renewal_of(one, count):
    """What the renewal of this half message has at its check of this number."""
    more = [("TRAN_PREPARED_QUEUE_OFFSET", str(one["queue_offset"])), ("TRANSACTION_CHECK_TIMES", str(count))]
    return {**said_of(one), "props": one["props"] + properties(more)}


def given_up_of(one):
    """What the record has by which the half message with this last renewal is given up."""
    return {**said_of(one), "topic": GIVEN_UP_TOPIC, "queue": 0, "sysflag": one["sysflag"] & ~12}


class Origin:
    """A half message of a log, with its renewals in `family`, what became of it, and the first record that says so."""

    def __init__(self, one):
        self.family, self.state, self.settled_by = [one], "open", None

    @property
    def next_check(self):
        return self.family[-1]["store"] + (NEXT_CHECK if len(self.family) > 1 else FIRST_CHECK)


class Following:
    """Goes over a log of `pipe` by the rules: before each record of a request all half messages are checked that are due by then, the
    first one first; a half message is settled at most once, and its op record is the record after the one that settles it."""

    def __init__(self, log):
        self.origins, self.open, self.at, self.last = [], [], {}, None
        self.numbers = {HALF_TOPIC: 0, OP_TOPIC: 0, GIVEN_UP_TOPIC: 0}
        for r in log:
            assert self.last is None or r["store"] >= self.last["store"], r
            self.take(r, next((one for one in self.open if one.next_check <= r["store"]), None))
            self.last = r

    def take(self, r, due):
        if r["topic"] in self.numbers:
            assert (r["queue"], r["queue_offset"]) == (0, self.numbers[r["topic"]]), r
            self.numbers[r["topic"]] += 1
        if r["topic"] == HALF_TOPIC and "TRAN_PREPARED_QUEUE_OFFSET" in dict(pairs_of(r["props"])):
            return self.take_renewal(r, due)
        if r["topic"] == GIVEN_UP_TOPIC:
            return self.take_given_up(r, due)
        if r["topic"] == OP_TOPIC and self.take_op(r):
            return None
        assert due is None, ("not checked in time", due.family[-1], r)
        if r["topic"] == HALF_TOPIC:
            origin = self.at[r["place"]] = Origin(r)
            self.origins.append(origin)
            self.open.append(origin)
        elif r["sysflag"] & 12:
            self.take_copy(r)
        return None

    def take_renewal(self, r, due):
        assert due is not None, ("checked before its time", r)
        assert len(due.family) <= MOST_CHECKS and said_of(r) == renewal_of(due.family[0], len(due.family)) and r["prepared"] == 0, r
        due.family.append(r)
        self.at[r["place"]] = due

    def take_given_up(self, r, due):
        assert due is not None and len(due.family) == MOST_CHECKS + 1, ("given up before its time", r)
        assert said_of(r) == given_up_of(due.family[-1]) and r["prepared"] == due.family[-1]["place"], r
        self.settle(due, "discarded", r)

    def take_copy(self, r):
        origin = self.at[r["prepared"]]
        named = next(one for one in origin.family if one["place"] == r["prepared"])
        assert origin.state == "open" and said_of(r) == copy_of(named), (origin.state, r)
        self.settle(origin, "committed", r)

    def take_op(self, r):
        """Whether it is the op record of the record before it; else it rolls back."""
        assert (pairs_of(r["props"]), r["sysflag"], r["prepared"], r["born"]) == ([("TAGS", "d")], 0, 0, r["store"]), r
        origin = next(one for one in self.origins if b"%d" % one.family[0]["queue_offset"] == r["body"])
        is_second = origin.settled_by is not None and origin.settled_by is self.last and self.last["topic"] != OP_TOPIC
        assert is_second or origin.state == "open", (origin.state, r)
        if not is_second:
            self.settle(origin, "rolled back", r)
        return is_second

    def settle(self, origin, state, r):
        origin.state, origin.settled_by = state, r
        self.open.remove(origin)


def states(folder):
    return [origin.state for origin in Following(records(folder, whole=False)).origins]


if not is_clock_taken():
    print("skipped: there is no cc, or the program takes no clock of a library")
    sys.exit(0)


@check("a half message of 178 bytes isn't seen; its Commit makes a copy of 117 and an op record of 140, and it is seen once")
def _(folder):
    clock = Clock(folder)
    with Pipe(folder, clock) as pipe:
        reply = pipe.ask(half(0, b"hi", [("PGROUP", "P")]))
        assert reply["extFields"] == {"msgId": "7F00000100002A9F" + "0" * 16, "queueId": "0", "queueOffset": "0"}, reply
        assert pipe.ask(pull(1, "T", 0))["code"] == 19
        rows = [(verdict(2, UNKNOWN, 0, 0), (0, "")), (verdict(3, ROLLBACK, 0, 0, group="Q"), (1, "half")),
                (verdict(4, COMMIT, 1, 0), (1, "half")), (verdict(5, COMMIT, 0, 1), (1, "half")),
                (verdict(6, 5, 0, 0), (1, "field commitOrRollback"))]
        assert [told(pipe.ask(data)) for data, _ in rows] == [wanted for _, wanted in rows]
        assert [r["size"] for r in records(folder)] == [178]
        assert told(pipe.ask(verdict(7, COMMIT, 0, 0))) == (0, "")
        found = pulled(pipe.ask(pull(8, "T", 0))["body"])
        names = ("place", "size", "body", "sysflag", "prepared", "queue_offset")
        assert [tuple(r[name] for name in names) for r in found] == [(178, 117, b"hi", 8, 0, 0)], found
        assert told(pipe.ask(verdict(9, COMMIT, 0, 0))) == (0, "")
        assert told(pipe.ask(verdict(10, ROLLBACK, 0, 0))) == (1, "settled committed")
        pipe.end()
    assert [(r["topic"], r["place"], r["size"]) for r in records(folder)] == [(HALF_TOPIC, 0, 178), ("T", 178, 117), (OP_TOPIC, 295, 140)]
    assert states(folder) == ["committed"]
    again = answers(folder, clock, verdict(0, COMMIT, 0, 0) + verdict(1, ROLLBACK, 0, 0))
    assert [told(r) for r in again] == [(0, ""), (1, "settled committed")] and len(records(folder)) == 3, again


@check("a half message that is rolled back is never seen, and what was decided stays over a restart")
def _(folder):
    clock = Clock(folder)
    data = half(0, b"hi") + verdict(1, ROLLBACK, 0, 0) + verdict(2, ROLLBACK, 0, 0) + verdict(3, COMMIT, 0, 0) + pull(4, "T", 0)
    assert [told(r) for r in answers(folder, clock, data)] == [(0, "")] * 3 + [(1, "settled rolledback"), (19, "")]
    assert [r["topic"] for r in records(folder)] == [HALF_TOPIC, OP_TOPIC] and states(folder) == ["rolled back"]
    data = verdict(0, COMMIT, 0, 0) + verdict(1, ROLLBACK, 0, 0) + pull(2, "T", 0)
    assert [told(r) for r in answers(folder, clock, data)] == [(1, "settled rolledback"), (0, ""), (19, "")]
    clock.set(10 ** 9)
    assert told(answers(folder, clock, pull(0, "T", 0))[0]) == (19, "") and len(records(folder)) == 2


@check("a half message is one by its property or its flag, isn't delayed, and keeps what is its own; a verdict may name its key or none")
def _(folder):
    clock, real = Clock(folder), [("REAL_TOPIC", "T"), ("REAL_QID", "2")]
    rows = [([("TRAN_MSG", "TrUe"), ("A", "x")], "0", "G", [("TRAN_MSG", "TrUe"), ("A", "x"), *real, ("PGROUP", "G")]),
            ([("A", "x")], "4", "G", [("A", "x"), *real, ("PGROUP", "G")]), ([], "7", "G", [*real, ("PGROUP", "G")]),
            ([("DELAY", "1"), ("PGROUP", "H"), ("TRAN_MSG", "true")], "0", "H", [("PGROUP", "H"), ("TRAN_MSG", "true"), *real]),
            ([("UNIQ_KEY", "u"), ("WAIT", "false"), ("REAL_QID", "9")], "4", "G",
             [("UNIQ_KEY", "u"), ("WAIT", "false"), *real, ("PGROUP", "G")])]
    told_of = answers(folder, clock, b"".join(
        send(k, b"%d" % k, queueId="2", sysFlag=flag, properties=properties(pairs), producerGroup="G", binary=k % 2 == 1, short=k > 2)
        for k, (pairs, flag, _, _) in enumerate(rows)))
    kept = records(folder)
    assert {(r["topic"], r["queue"], r["sysflag"] & 12) for r in kept} == {(HALF_TOPIC, 0, 0)}
    assert [pairs_of(r["props"]) for r in kept] == [wanted for _, _, _, wanted in rows]
    places = [where(reply) for reply in told_of]
    assert places == [(k, r["place"]) for k, r in enumerate(kept)] and {r["extFields"]["queueId"] for r in told_of} == {"2"}
    refused = answers(folder, clock, verdict(0, COMMIT, *places[4], group="G", key="v") + verdict(1, COMMIT, *places[3], group="G"))
    assert [told(r) for r in refused] == [(1, "half")] * 2
    keys = ["", "any", "x", "", "u"]
    done = answers(folder, clock, b"".join(verdict(k, COMMIT, *places[k], group=rows[k][2], key=keys[k], binary=k == 1) for k in range(5)))
    assert [told(r) for r in done] == [(0, "")] * 5, done
    assert [said_of(r) for r in pulled_all(folder, clock, ["T"])] == [copy_of(r) for r in kept] and set(states(folder)) == {"committed"}


@check("a half message that is refused takes no place, and makes no topic")
def _(folder):
    rows = [({"topic": "a b"}, 13, "topic"), ({"topic": HALF_TOPIC}, 16, "system topic"), ({"defaultTopic": ""}, 17, "no topic"),
            ({"queueId": "4"}, 1, "queue"), ({"more": [("A", "x" * 32000)]}, 13, "properties")]
    clock = Clock(folder)
    data = b"".join(half(k, b"", **fields) for k, (fields, _, _) in enumerate(rows))
    data += pull(10, HALF_TOPIC, 0) + pull(11, OP_TOPIC, 0) + pull(12, "T", 0)
    wanted = [(code, remark) for _, code, remark in rows] + [(16, "system topic")] * 2 + [(17, "no topic")]
    assert [told(r) for r in answers(folder, clock, data)] == wanted and records(folder) == []


@check("a group's client is asked by a frame of code 39 whose bytes are the documented ones, and its answer is a verdict as others")
def _(folder):
    clock = Clock(folder)
    with Pipe(folder, clock) as pipe:
        pipe.ask(beat(0, "P"))
        pipe.ask(half(1, b"hi", [("PGROUP", "P")]))
        clock.set(6999)
        assert pipe.ask(greatest(2, "T"))["code"] == 0 and pipe.checks == []
        clock.set(7000)
        assert pipe.ask(greatest(3, "T"))["code"] == 0
        one, = pipe.checks
        identity = "7F00000100002A9F00000000000000B2"
        fields = {"commitLogOffset": "178", "msgId": identity, "offsetMsgId": identity, "tranStateTableOffset": "1", "transactionId": ""}
        header = {"code": 39, "extFields": fields, "flag": 2, "language": "OTHER", "opaque": 0, "serializeTypeCurrentRPC": "JSON",
                  "version": 0}
        assert one["frame"] == frame(header, one["body"]) and len(one["body"]) == 210, one
        asked, = pulled(one["body"])
        assert (asked["topic"], asked["queue"], asked["body"], asked["place"], asked["queue_offset"]) == ("T", 0, b"hi", 178, 1), asked
        kept = records(folder)[1]
        assert kept["size"] == 233 and {**said_of(kept), "topic": "T"} == said_of(asked), (kept, asked)
        assert told(pipe.ask(verdict(4, UNKNOWN, 1, 178))) == (0, "") and len(records(folder)) == 2
        assert told(pipe.ask(verdict(5, COMMIT, 1, 178))) == (0, "")
        copy, = pulled(pipe.ask(pull(6, "T", 0))["body"])
        assert (copy["prepared"], said_of(copy)) == (178, copy_of(kept)), copy
        assert [told(pipe.ask(verdict(7 + k, COMMIT, k, 178 * k))) for k in range(2)] == [(0, "")] * 2
        clock.set(10 ** 9)
        pipe.ask(greatest(9, "T"))
        pipe.end()
        assert len(pipe.checks) == 1 and len(records(folder)) == 4
    assert states(folder) == ["committed"]


@check("each open half message is checked at its times, one that is settled no more, and only its own group's client is asked")
def _(folder):
    clock = Clock(folder)
    with Pipe(folder, clock) as pipe:
        pipe.ask(beat(0, "P", "Q"))
        groups = ["P", "Q", "R", "P", "Q", "R"]
        places = [where(pipe.ask(half(1, b"%d" % k, [("UNIQ_KEY", f"u{k}")], producerGroup=group))) for k, group in enumerate(groups)]
        for k in (0, 4):
            pipe.ask(verdict(2, (COMMIT, ROLLBACK)[k // 4], *places[k], group=groups[k]))
        clock.set(7000)
        pipe.ask(greatest(3, "T"))
        clock.set(66999)
        pipe.ask(greatest(4, "T"))
        assert [(pulled(one["body"])[0]["body"], one["opaque"], one["extFields"]["msgId"]) for one in pipe.checks] == [
            (b"1", 0, "u1"), (b"3", 1, "u3")], pipe.checks
        pipe.ask(frame({"code": 35, "extFields": {"clientID": "c1", "producerGroup": "P"}, "flag": 0, "opaque": 5, "version": 395}))
        clock.set(67000)
        pipe.end()
        assert [(pulled(one["body"])[0]["body"], one["opaque"]) for one in pipe.checks[2:]] == [(b"1", 2)], pipe.checks
    assert [(origin.state, len(origin.family) - 1) for origin in Following(records(folder)).origins] == [
        ("committed", 0), ("open", 2), ("open", 2), ("open", 2), ("rolled back", 0), ("open", 2)]


@check("a half message that nobody answers for is checked fifteen times and then given up, over restarts too; it is never seen")
def _(folder):
    clock = Clock(folder)
    answers(folder, clock, half(0, b"hi") + half(1, b"ho", queueId="1"))
    for number, now in enumerate([6999, 7000, *range(67000, 900000, 60000)]):
        clock.set(now)
        assert answers(folder, clock, greatest(0, HALF_TOPIC))[0]["extFields"]["offset"] == str(2 + 2 * number), now
    assert told(answers(folder, clock, verdict(0, COMMIT, 0, 0))[0]) == (0, "")
    clock.set(906999)
    assert answers(folder, clock, greatest(0, GIVEN_UP_TOPIC))[0]["extFields"]["offset"] == "0"
    clock.set(907000)
    last = Following(records(folder)).origins[1].family[-1]
    rows = [(verdict(k, decision, *one), (1, "settled discarded")) for k, (decision, one) in enumerate(
        (decision, (r["queue_offset"], r["place"])) for decision in (COMMIT, ROLLBACK) for r in (records(folder)[1], last))]
    assert [told(r) for r in answers(folder, clock, b"".join(data for data, _ in rows))] == [wanted for _, wanted in rows]
    clock.set(10 ** 9)
    found = pulled(answers(folder, clock, pull(0, GIVEN_UP_TOPIC, 0))[0]["body"])
    assert [(r["body"], r["prepared"]) for r in found] == [(b"ho", last["place"])] and states(folder) == ["committed", "discarded"]
    assert [r["body"] for r in pulled_all(folder, clock, ["T"])] == [b"hi"]


@check("a Commit that a crash cut is made once: the copy alone settles its half message, and what is torn of it doesn't")
def _(folder):
    clock = Clock(folder)
    answers(folder, clock, half(0, b"hi", [("PGROUP", "P")]) + verdict(1, COMMIT, 0, 0))
    path = os.path.join(folder, FIRST)
    whole = open(path, "rb").read()
    assert len(whole) == 435
    for at in [*range(178, 435, 16), 294, 295, 296, 434]:
        with open(path, "wb") as file:
            file.write(whole[:at])
        crash(folder)
        decisions = (COMMIT, ROLLBACK) if at >= 295 else (COMMIT, COMMIT)
        found = answers(folder, clock, b"".join(verdict(k, decision, 0, 0) for k, decision in enumerate(decisions)) + pull(2, "T", 0))
        assert [told(r) for r in found[:2]] == [(0, ""), (1, "settled committed") if at >= 295 else (0, "")], at
        assert [r["body"] for r in pulled(found[2]["body"])] == [b"hi"] and states(folder) == ["committed"], at
        assert len(records(folder)) == (2 if at >= 295 else 3), at


@check("half messages, verdicts and checks that find the disk full wait until it works again, and nothing is made twice")
def _(folder):
    clock = Clock(folder)

    def ignore():
        signal.signal(signal.SIGXFSZ, signal.SIG_IGN)
    with Pipe(folder, clock, preexec_fn=ignore) as pipe:
        places = [where(pipe.ask(half(k, b"%d" % k))) for k in range(2)]
        pipe.ask(beat(2, "P"))
        limits = resource.prlimit(pipe.child.pid, resource.RLIMIT_FSIZE)
        resource.prlimit(pipe.child.pid, resource.RLIMIT_FSIZE, (os.path.getsize(os.path.join(folder, FIRST)), limits[1]))
        failed = [pipe.ask(verdict(3, COMMIT, *places[0])), pipe.ask(half(4, b"2")), pipe.ask(verdict(5, ROLLBACK, *places[1]))]
        assert [(r["code"], r["remark"][:6]) for r in failed] == [(10, "flush ")] * 3, failed
        clock.set(7000)
        assert pipe.ask(pull(6, "T", 0))["code"] == 19 and pipe.checks == []
        resource.prlimit(pipe.child.pid, resource.RLIMIT_FSIZE, limits)
        again = [verdict(7, COMMIT, *places[0]), verdict(8, ROLLBACK, *places[1])]
        assert [told(pipe.ask(data)) for data in again] == [(0, "")] * 2 and pipe.checks == []
        assert [r["body"] for r in pulled(pipe.ask(pull(9, "T", 0))["body"])] == [b"0"]
        clock.set(67000)
        pipe.ask(greatest(10, "T"))
        assert [pulled(one["body"])[0]["body"] for one in pipe.checks] == [b"2"], pipe.checks
        pipe.end()
    assert states(folder) == ["committed", "rolled back", "open"]


@check("serve takes half messages and verdicts and keeps them over a kill, and the next run of pipe checks what is open")
def _(folder):
    clock = Clock(folder)
    with Serve(folder, clock) as serve:
        places = [where(reply) for reply in serve.ask(*(half(k, b"%d" % k) for k in range(6)))]
        found = serve.ask(*(verdict(k, (COMMIT, ROLLBACK, UNKNOWN)[k % 3], *places[k]) for k in range(6)), verdict(6, COMMIT, *places[0]),
                          verdict(7, ROLLBACK, *places[0]), verdict(8, COMMIT, *places[1], group="Q"))
        assert [told(r) for r in found] == [(0, "")] * 7 + [(1, "settled committed"), (1, "half")], found
        clock.set(7000)
        assert serve.ask(greatest(9, HALF_TOPIC))[0]["extFields"]["offset"] == "6"
    assert states(folder) == ["committed", "rolled back", "open"] * 2
    assert sorted(r["body"] for r in pulled_all(folder, clock, ["T"])) == [b"0", b"3"]
    assert [len(origin.family) for origin in Following(records(folder)).origins] == [1, 1, 2] * 2


def heard_by(serve, wanted):
    """The frames that come over the link of `serve` until there are so many."""
    while len(frames_of(serve.held)[0]) < wanted:
        serve.held += serve.link.recv(1 << 16) or b"-" * 4
    found, serve.held = [reply_of(data) for data in frames_of(serve.held)[0]], b""
    return found


@check("serve asks by itself fifteen times about a half message of which nobody decides, and gives it up then")
def _(folder):
    clock = Clock(folder)
    with Serve(folder, clock) as serve:
        serve.ask(beat(0, "P"))
        serve.ask(half(1, b"hi", [("PGROUP", "P"), ("UNIQ_KEY", "u")]))
        for count in range(1, MOST_CHECKS + 1):
            clock.set(clock.now + (NEXT_CHECK if count > 1 else FIRST_CHECK))
            serve.link.sendall(send(count + 1, b"x"))  # it wakes the flusher, which else sleeps by a clock of its own
            told_of = heard_by(serve, 2)
            reply, = [one for one in told_of if one["flag"] & 1]
            asked, = [one for one in told_of if not one["flag"] & 1]
            assert (reply["opaque"], reply["code"], asked["opaque"], asked["code"]) == (count + 1, 0, count - 1, 39), told_of
            one, = pulled(asked["body"])
            assert (one["body"], one["topic"], one["queue"], asked["extFields"]["msgId"]) == (b"hi", "T", 0, "u"), asked
            assert dict(pairs_of(one["props"]))["TRANSACTION_CHECK_TIMES"] == str(count), one
        clock.set(clock.now + NEXT_CHECK)
        serve.ask(send(0, b"x"))
        until(lambda: any(r["topic"] == GIVEN_UP_TOPIC for r in records(folder, whole=False)), "it isn't given up")
        reply, = serve.ask(verdict(0, COMMIT, one["queue_offset"], one["place"], key="u"))
        assert told(reply) == (1, "settled discarded"), reply


class Bank:
    """The owner of the first account, whose book no kill takes: what each transfer is to bring, and what was decided about it."""

    def __init__(self, chance):
        self.chance, self.sums, self.requests, self.next_words = chance, [], [], []
        self.paid, self.refused = set(), set()  # the book
        self.committed, self.rolled_back, self.given_up, self.stored = set(), set(), set(), set()  # as the broker answered
        self.checks, self.unknown, self.repeated = 0, 0, 0

    def request(self, meaning, make):
        """The frame of a request whose reply will mean this."""
        self.requests.append(meaning)
        return make(len(self.requests) - 1)

    def heartbeat(self):
        return self.request(None, lambda opaque: beat(opaque, "Bank"))

    def question(self):
        return self.request(None, lambda opaque: greatest(opaque, HALF_TOPIC))

    def transfer(self):
        """The half message of one more transfer."""
        number, chance = len(self.sums), self.chance
        self.sums.append(chance.randrange(1, 1000))
        more = [("UNIQ_KEY", f"t{number}"), *[pair for pair in (("TAGS", "A"), ("KEYS", "k l"), ("x", "\u00e4")) if chance.random() < 0.3]]
        return self.request(("half", number), lambda opaque: half(
            opaque, b"%d %d" % (number, self.sums[number]), more, topic="Transfers", queueId=str(number % 4), producerGroup="Bank",
            binary=number % 2 == 1, short=number % 3 == 1))

    def decide(self, number, waits):
        """What the book says of a transfer; where it says nothing yet, it may be decided now, or with this chance remain open."""
        if number not in self.paid | self.refused and self.chance.random() >= waits:
            (self.paid if self.chance.random() < 0.6 else self.refused).add(number)
        return COMMIT if number in self.paid else ROLLBACK if number in self.refused else UNKNOWN

    def judge(self, number, queue_offset, place, waits):
        """Has a verdict on a transfer sent next, at times twice."""
        decision = self.decide(number, waits)
        self.unknown += decision == UNKNOWN
        for _ in range(1 + (self.chance.random() < 0.1)):
            self.next_words.append(self.request(("verdict", number, decision), lambda opaque: verdict(
                opaque, decision, queue_offset, place, group="Bank", key=f"t{number}", binary=number % 2 == 0)))

    def words(self):
        """The verdicts that are to be sent next."""
        words, self.next_words = self.next_words, []
        return words

    def hear(self, heard, waits=0.3):
        """Takes a reply, or a check-back."""
        if heard["flag"] & 1 == 0:
            return self.hear_check(heard, waits)
        meaning = self.requests[heard["opaque"]]
        if meaning is None:
            assert heard["code"] == 0, heard
        elif meaning[0] == "half":
            self.hear_stored(meaning[1], heard, waits)
        else:
            self.hear_judged(*meaning[1:], heard)
        return None

    def hear_stored(self, number, reply, waits):
        """The half message is stored. The owner may decide, and may forget to tell the broker."""
        self.stored.add(number)
        if self.decide(number, waits) != UNKNOWN and self.chance.random() < 0.7:
            self.judge(number, *where(reply), waits)

    def hear_judged(self, number, decision, reply):
        if told(reply) == (1, "settled discarded") and decision != UNKNOWN:
            self.given_up.add(number)
            self.paid.discard(number)  # nobody will see it: it is paid back
            return
        assert told(reply) == (0, ""), (number, decision, reply)
        done = {COMMIT: self.committed, ROLLBACK: self.rolled_back}.get(decision, set())
        self.repeated += number in done
        done.add(number)

    def hear_check(self, asked, waits):
        """The broker asks what became of a transfer: the book knows."""
        assert asked["code"] == 39 and asked["flag"] == 2, asked
        self.checks += 1
        one, = pulled(asked["body"])
        number, amount = (int(word) for word in one["body"].split())
        assert number not in self.committed | self.rolled_back, ("it was told before", asked)
        fields = asked["extFields"]
        assert (one["topic"], one["queue"], amount) == ("Transfers", number % 4, self.sums[number]), one
        assert (fields["msgId"], fields["transactionId"]) == (f"t{number}",) * 2, asked
        assert fields["offsetMsgId"] == "7F00000100002A9F%016X" % one["place"], asked
        assert (fields["tranStateTableOffset"], fields["commitLogOffset"]) == (str(one["queue_offset"]), str(one["place"])), asked
        self.judge(number, one["queue_offset"], one["place"], waits)


def killed_run(folder, clock, bank, chance, transfers):
    """A run that gets transfers and verdicts while the clock moves on, and ends or is killed. Whether it was killed."""
    with Pipe(folder, clock, "--segment", "16384") as pipe:
        pipe.say(bank.heartbeat())
        owed = 1
        for _ in range(chance.randrange(2, 6)):
            words = [bank.transfer() for _ in range(chance.randrange(transfers + 1))] + bank.words() + [bank.question()]
            chance.shuffle(words)
            pipe.say(*words)
            owed += len(words)
            for _ in range(chance.randrange(owed + 1)):
                heard = pipe.hear()
                owed -= heard["flag"] & 1
                bank.hear(heard)
            clock.set(clock.now + chance.choice([1, 50, 900, 3500, 6100, 20000, 60500]))
        is_killed = chance.random() < 0.8
        if is_killed:
            time.sleep(chance.random() * 0.01)
            pipe.kill()
        else:
            pipe.child.stdin.close()
        heard = pipe.hear()
        while heard is not None:
            bank.hear(heard)
            heard = pipe.hear()
        bank.next_words = [word for word in bank.next_words if chance.random() < 0.5]  # the owner forgets the others
    return is_killed


def last_run(folder, clock, bank):
    """A run in which all that is asked is answered, and nothing left open."""
    with Pipe(folder, clock, "--segment", "16384") as pipe:
        bank.hear(pipe.ask(bank.heartbeat()), 0)
        clock.set(clock.now + NEXT_CHECK)
        bank.hear(pipe.ask(bank.question()), 0)
        for asked in pipe.checks:
            bank.hear(asked, 0)
        for word in bank.words():
            bank.hear(pipe.ask(word), 0)
        pipe.end()


class Story:
    """What came of all transfers."""

    def __init__(self, folder, seed):
        chance, clock = random.Random(seed), Clock(folder, 10 ** 12)
        self.bank, self.runs, self.kills = Bank(chance), 0, 0
        while len(self.bank.stored) < 300:
            self.kills += killed_run(folder, clock, self.bank, chance, 6)
            self.compare(folder)
        while "open" in self.states.values():
            assert self.runs < 500, self.states
            last_run(folder, clock, self.bank)
            self.compare(folder)
        self.log = records(folder)
        self.seen = [tuple(int(word) for word in r["body"].split()) for r in pulled_all(folder, clock, ["Transfers"])]
        clock.set(clock.now + 10 ** 9)
        answers(folder, clock)
        assert records(folder) == self.log, "something was made of what is settled"

    def compare(self, folder):
        """After each run: what became of each half message in the log is what the broker has answered."""
        origins, bank = Following(records(folder, whole=False)).origins, self.bank
        self.runs += 1
        self.states = {int(one.family[0]["body"].split()[0]): one.state for one in origins}
        assert len(self.states) == len(origins), "a half message is there twice"
        assert bank.stored <= set(self.states), ("a half message that was answered is lost", bank.stored - set(self.states))
        for answered, state in ((bank.committed, "committed"), (bank.rolled_back, "rolled back"), (bank.given_up, "discarded")):
            for number in answered:
                assert self.states[number] == state, (number, state, self.states[number])


FOLDER = tempfile.TemporaryDirectory()
STORIES = []


@check("of transfers through killed runs each half message is checked at its times, and settled once and as was answered")
def _(_):
    story = Story(FOLDER.name, 20261130)
    STORIES.append(story)
    bank = story.bank
    assert min(story.kills, bank.checks, bank.unknown, bank.repeated) >= 5, (story.kills, bank.checks, bank.unknown, bank.repeated)
    print(f"    {story.runs} runs, {story.kills} killed; {len(bank.stored)} half messages answered, {bank.checks} check-backs, "
          f"{bank.unknown} of them or of the first verdicts unknown, {len(story.log)} records")


@check("no transfer is seen twice, and none in another sum than it was sent with")
def _(_):
    story, = STORIES
    numbers = [number for number, _ in story.seen]
    assert len(numbers) == len(set(numbers)), sorted(number for number in numbers if numbers.count(number) > 1)
    assert all(story.bank.sums[number] == amount for number, amount in story.seen)


@check("no transfer is lost whose Commit was acknowledged")
def _(_):
    story, = STORIES
    lost = story.bank.committed - {number for number, _ in story.seen}
    assert not lost and story.bank.committed, lost


@check("no transfer is seen that was rolled back, or that its owner never decided to pay")
def _(_):
    story, = STORIES
    seen = {number for number, _ in story.seen}
    assert not seen & story.bank.rolled_back and seen <= story.bank.paid and story.bank.rolled_back, seen - story.bank.paid


@check("the two accounts have together what they had")
def _(_):
    story, = STORIES
    bank, before = story.bank, (10 ** 6, 0)
    after = before[0] - sum(bank.sums[number] for number in bank.paid), before[1] + sum(amount for _, amount in story.seen)
    assert sum(after) == sum(before) and after != before, (before, after)
    print(f"    {before[0]} and {before[1]} before, {after[0]} and {after[1]} after {len(story.seen)} transfers")
