#!/usr/bin/env python3
"""Queries of the real program by key and by id, in `pipe` and in `serve`: checks/queries.py PROGRAM.

Most runs have a clock that stands still until a check sets it, so that store times are known. What is found is compared with the log,
read by code of its own. At last keys are queried while producers go on. Each check prints its name; the first that fails ends it.
"""
import os
import random
import socket
import subprocess
import sys
import time

from clocked import FIRST, Clock, Pipe, Serve, answers, is_clock_taken
from killed_broker import Broker, until
from mq_client import Admin, Connection, Producer
from wire import PROGRAM, SYSTEM_TOPICS, check, crash, frame, properties, pulled, records, send

FOUND = {"indexLastUpdatePhyoffset": "0", "indexLastUpdateTimestamp": "0"}
PRODUCERS, EACH, KEYS = 4, 1000, 40
MANY, ASKED = 1000000, 400


def query(opaque, key, topic="T", most=32, begin=0, end=9000, binary=False, without=()):
    """A query for the newest messages of a topic that have this key and were stored within these times, in milliseconds."""
    ext = {"topic": topic, "key": key, "maxNum": str(most), "beginTimestamp": str(begin), "endTimestamp": str(end)}
    ext = {name: value for name, value in ext.items() if name not in without}
    return frame({"code": 12, "extFields": ext, "flag": 0, "opaque": opaque, "version": 395}, b"", binary)


def view(opaque, place, binary=False):
    """A query for the message that begins at this place."""
    return frame({"code": 33, "extFields": {"offset": str(place)}, "flag": 0, "opaque": opaque, "version": 395}, b"", binary)


def keyed(opaque, body, keys, more=(), **fields):
    """A send with these keys, and perhaps `more` properties."""
    return send(opaque, body, properties=properties([("KEYS", keys), *more]), **fields)


def bodies(reply):
    """The bodies of the messages that were found, in the order of the log; none where the reply says that there is none."""
    if reply["code"] == 22:
        assert (reply.get("remark"), reply["extFields"], reply["body"]) == (None, {}, b""), reply
        return []
    assert (reply["code"], reply.get("remark")) == (0, None), reply
    found = pulled(reply["body"])
    assert found and [r["place"] for r in found] == sorted(r["place"] for r in found), reply
    return [r["body"] for r in found]


def bytes_at(folder, r):
    """The bytes of a record of the first log file."""
    with open(os.path.join(folder, FIRST), "rb") as file:
        return file.read()[r["place"]:r["place"] + r["size"]]


if not is_clock_taken():
    print("skipped: there is no cc, or the program takes no clock of a library")
    sys.exit(0)


@check("messages are found by their keys and by their ids, in both forms, and what nothing has is 22")
def _(folder):
    clock = Clock(folder, 1000)
    sends = keyed(0, b"one", "Aa") + keyed(1, b"two", "BB")  # both keys have the hash 2538191, and only hashes are compared
    for binary in (False, True):
        data = (query(2, "Aa", binary=binary) + query(3, "Aa", most=1, binary=binary) + query(4, "C", binary=binary)
                + query(5, "Aa", topic="U", binary=binary) + view(6, 0, binary) + view(7, 5, binary))
        told = answers(folder, clock, (b"" if binary else sends) + data)[0 if binary else 2:]
        one, two = records(folder)
        assert [(r["opaque"], r["code"], r["flag"], r["binary"]) for r in told] == [
            (k, code, 1, binary) for k, code in zip(range(2, 8), (0, 0, 22, 22, 0, 22))], told
        assert [r["body"] for r in told] == [bytes_at(folder, one) + bytes_at(folder, two), bytes_at(folder, two), b"", b"",
                                             bytes_at(folder, one), b""]
        assert [r["extFields"] for r in told] == [FOUND, FOUND, {}, {}, {}, {}] and not any("remark" in r for r in told), told


@check("each word of KEYS is a key, and so is UNIQ_KEY; a message comes once, however often it has the key")
def _(folder):
    rows = [(b"0", [("KEYS", "a b  a")]), (b"1", [("UNIQ_KEY", "u"), ("KEYS", " b ")]), (b"2", [("UNIQ_KEY", "a b")]), (b"3", []),
            (b"4", [("KEYS", "u"), ("UNIQ_KEY", "u")]), (b"5", [("KEYS", ""), ("UNIQ_KEY", "")]), (b"6", [("KEYS", "\U0001F511 \u00e9")])]
    data = b"".join(send(k, body, properties=properties(pairs)) for k, (body, pairs) in enumerate(rows))
    keys = ["a", "b", "u", "a b", "", "\U0001F511", "\u00e9", "A", " a"]
    told = answers(folder, Clock(folder), data + b"".join(query(k, key) for k, key in enumerate(keys)))[len(rows):]
    assert [bodies(r) for r in told] == [[b"0"], [b"0", b"1"], [b"1", b"4"], [b"2"], [b"5"], [b"6"], [b"6"], [], []], told


@check("the newest messages are taken, as many as are asked for and at most 64, and told in the order of the log")
def _(folder):
    data = b"".join(keyed(k, b"%d" % k, "k" if k % 2 else "k other") for k in range(100))
    asked = {32: 32, 1: 1, 0: 1, -5: 1, 64: 64, 65: 64, 2147483647: 64, -2147483648: 1}
    told = answers(folder, Clock(folder), data + b"".join(query(k, "k", most=most) for k, most in enumerate(asked)))[100:]
    assert [bodies(r) for r in told] == [[b"%d" % k for k in range(100 - count, 100)] for count in asked.values()]


@check("a body takes 8 MiB of the newest messages, and none behind the first that doesn't go in beside them")
def _(folder):
    clock = Clock(folder)
    answers(folder, clock, keyed(0, b"", "k"))
    beside = records(folder)[0]["size"]  # so many bytes each record here has beside its body
    for key, more in (("a", 0), ("b", 1)):
        sizes = [1, 8388608 - 4 * beside - 6000001 + more, 3000000, 3000000, 1]
        told = answers(folder, clock, b"".join(keyed(k, b"x" * size, key) for k, size in enumerate(sizes)) + query(5, key))[5]
        assert [len(body) for body in bodies(told)] == sizes[1 + more:], [len(body) for body in bodies(told)]
        assert more or len(told["body"]) == 8388608, len(told["body"])


@check("both bounds of the times are included; a range the wrong way round finds nothing, and fields that can't be read are named")
def _(folder):
    clock, found = Clock(folder, 1000), []
    with Pipe(folder, clock) as pipe:
        for k, now in enumerate((1000, 2000, 3000, 2500, 4000)):  # a clock that is set back leaves the time as it was
            clock.set(now)
            assert pipe.ask(keyed(k, b"%d" % k, "k"))["code"] == 0
        assert [r["store"] for r in records(folder, whole=False)] == [1000, 2000, 3000, 3000, 4000]
        bounds = {(1000, 4000): "01234", (2000, 3000): "123", (1001, 3999): "123", (3000, 3000): "23", (3001, 3999): "", (4000, 9000): "4",
                  (-9223372036854775808, 9223372036854775807): "01234", (-5, 1000): "0", (3000, 2000): "", (9000, 0): "", (-5, -1): ""}
        for begin, end in bounds:
            found.append("".join(body.decode() for body in bodies(pipe.ask(query(9, "k", begin=begin, end=end)))))
        assert found == list(bounds.values()), found
        rows = [(query(9, "k", most="x"), "field maxNum"), (query(9, "k", begin=""), "field beginTimestamp"),
                (query(9, "k", end=2 ** 63), "field endTimestamp"), (query(9, "k", without=("key",)), "field key"),
                (view(9, -1), "field offset"), (view(9, 2 ** 62), "field offset"), (view(9, "x"), "field offset")]
        for asked, remark in rows:
            told = pipe.ask(asked)
            assert (told["code"], told.get("remark")) == (1, remark), told
        pipe.end()


@check("each record is found where it begins and nowhere else, also once its log is opened again")
def _(folder):
    clock, small = Clock(folder), ("pipe", "--segment", "4096")
    answers(folder, clock, b"".join(keyed(k, b"x" * (700 + k), f"k{k % 3}") for k in range(12)), small)
    log = records(folder)
    assert len({r["place"] // 4096 for r in log}) == 3
    places = [r["place"] for r in log]
    others = [place for r in log for place in (r["place"] + 1, r["place"] + r["size"] - 1)] + [places[-1] + log[-1]["size"], 2 ** 62 - 1]
    told = answers(folder, clock, b"".join(view(k, place) for k, place in enumerate(places + others)))
    assert [bodies(r) for r in told] == [[r["body"]] for r in log] + [[] for _ in others]
    told = answers(folder, clock, b"".join(query(k, f"k{k}") for k in range(4)))
    assert [bodies(r) for r in told] == [[r["body"] for k, r in enumerate(log) if k % 3 == key] for key in range(4)]


@check("a record whose end is lost is found no more, and those before it are")
def _(folder):
    clock = Clock(folder)
    answers(folder, clock, keyed(0, b"a", "k") + keyed(1, b"b", "k"))
    a, b = records(folder)
    with open(os.path.join(folder, FIRST), "r+b") as file:
        file.truncate(b["place"] + b["size"] - 1)
    crash(folder)
    told = answers(folder, clock, query(0, "k") + view(1, b["place"]) + view(2, a["place"]))
    assert [bodies(r) for r in told] == [[b"a"], [], [b"a"]]
    told = answers(folder, clock, keyed(0, b"c", "k") + query(1, "k") + view(2, b["place"]))
    assert [bodies(r) for r in told[1:]] == [[b"a", b"c"], [b"c"]]


@check("a half message has its keys in the topic of half messages, and its message those of its own once it is committed")
def _(folder):
    with Pipe(folder, Clock(folder)) as pipe:
        assert pipe.ask(keyed(0, b"paid", "k", [("TRAN_MSG", "true"), ("PGROUP", "P"), ("UNIQ_KEY", "u")]))["code"] == 0
        asked = [query(1, key, topic) for topic in (SYSTEM_TOPICS[1], "T") for key in ("k", "u")]
        assert [bodies(pipe.ask(one)) for one in asked] == [[b"paid"], [b"paid"], [], []]
        ext = {"producerGroup": "P", "tranStateTableOffset": "0", "commitLogOffset": "0", "commitOrRollback": "8"}
        assert pipe.ask(frame({"code": 37, "extFields": ext, "flag": 0, "opaque": 2, "version": 395}))["code"] == 0
        assert [bodies(pipe.ask(one)) for one in asked] == [[b"paid"]] * 4
        assert bodies(pipe.ask(view(3, 0))) == [b"paid"]
        pipe.end()


@check("in serve a message is found once it is on the disk, and not before; and again after a kill")
def _(folder):
    clock, early = Clock(folder), 0
    with Serve(folder, clock) as server:
        for k in range(40):
            asked = [keyed(0, b"%d" % k, f"k{k}"), query(1, f"k{k}"), view(2, sum(r["size"] for r in records(folder, whole=False)))]
            reply, by_key, by_id = server.ask(*asked)  # the queries are answered while the record is flushed
            assert reply["code"] == 0 and [r["opaque"] for r in (reply, by_key, by_id)] == [0, 1, 2], reply
            early += bodies(by_key) == []
            assert bodies(by_key) in ([], [b"%d" % k]) and bodies(by_id) in ([], [b"%d" % k]), (by_key, by_id)
            until(lambda: bodies(server.ask(query(1, f"k{k}"))[0]) == [b"%d" % k], "a message isn't found by its key")
            assert bodies(server.ask(view(2, records(folder, whole=False)[-1]["place"]))[0]) == [b"%d" % k]
    assert early > 0, "each message was found before its flush could end"
    print(f"    {early} of 40 queries came before the record was on the disk")
    with Serve(folder, clock) as server:
        assert [bodies(r) for r in server.ask(*(query(k, f"k{k}") for k in range(40)))] == [[b"%d" % k] for k in range(40)]


@check(f"while {PRODUCERS} producers send {PRODUCERS * EACH} messages of {KEYS} keys, each query finds newest ones of its key, in order")
def _(folder):
    taken, began = [], time.time()
    with Broker(folder) as broker, Connection(broker.address, timeout=20) as connection:
        admin, producers = Admin(connection), [Producer(Connection(broker.address, timeout=20)) for _ in range(PRODUCERS)]
        for number in range(EACH):
            sent = [producer.send_async("T", b"%d" % (number * PRODUCERS + k), keys=f"k{(number * PRODUCERS + k) % KEYS}")
                    for k, producer in enumerate(producers)]
            if number % 50 == 49:
                key, before = number % KEYS, time.time()
                found = [int(one.body) for one in admin.query("T", f"k{key}", most=64)]
                taken.append(time.time() - before)
                assert len(set(found)) == len(found) and all(body % KEYS == key for body in found), (key, found)
                for future in sent:
                    future.result(20)
        for producer in producers:
            producer.close()
        until(lambda: len(records(folder, whole=False)) == PRODUCERS * EACH, "a message is missed")
        log = [int(r["body"]) for r in records(folder, whole=False)]
        for key in range(KEYS):
            wanted = [body for body in log if body % KEYS == key][-64:]
            until(lambda: [int(one.body) for one in admin.query("T", f"k{key}", most=64)] == wanted, f"k{key} finds others")
    print(f"    {len(taken)} queries beside them, {1000 * max(taken):.0f} ms at most; {time.time() - began:.1f} s in all")


def fill(broker, count):
    """Sends so many messages of which each has a key of its own, and waits for the reply to the last: nobody waits for the others'."""
    names = {"binary": True, "short": True}
    one, last = keyed(0, b"m00000000", "k00000000", flag=2, **names), keyed(0, b"last", "last", **names)
    with socket.create_connection(("127.0.0.1", broker.port), 60) as link:
        for first in range(0, count, 1000):
            link.sendall(b"".join(one.replace(b"00000000", b"%08d" % number) for number in range(first, first + 1000)))
        link.sendall(last)
        assert link.recv(1), "the link ended"


@check(f"among the keys of {MANY:,} messages each query finds the message of its key, while a producer goes on; and the tables are sound")
def _(folder):
    chance, began = random.Random(7), time.time()
    with Broker(folder) as broker, Connection(broker.address, timeout=60) as connection:
        fill(broker, MANY)
        filled, admin, producer = time.time() - began, Admin(connection), Producer(Connection(broker.address, timeout=60))
        until(lambda: len(admin.query("T", "last")) == 1, "the last message isn't found")
        before = time.time()
        for number in range(ASKED):
            beside = producer.send_async("T", b"beside", keys=f"beside{number}")
            key = chance.randrange(MANY)
            assert [one.body for one in admin.query("T", f"k{key:08d}")] == [b"m%08d" % key], key
            assert admin.query("T", f"k{MANY + number:08d}") == []
            beside.result(60)
        taken = time.time() - before
        producer.close()
    said = subprocess.run([PROGRAM, "verify"], cwd=folder, stdin=subprocess.DEVNULL, capture_output=True, timeout=300)
    lines = said.stdout.decode().splitlines()
    assert said.returncode == 0 and lines[0].split()[:2] == ["records", str(MANY + 1 + ASKED)] and lines[1:] == ["equal"], said
    print(f"    sent in {filled:.0f} s; {2 * ASKED} queries and {ASKED} sends beside them in {taken:.1f} s")
