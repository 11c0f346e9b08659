#!/usr/bin/env python3
"""Opens stores of the real program again, after ends of every kind: checks/reopen.py PROGRAM.

A hundred runs are killed at random moments. Each message that was acknowledged has to stand in the log, at the place that its id
says, with its body, and to be pulled by the next run from the queue and the offset that its reply told.
"""
import os
import random
import resource
import signal
import subprocess
import time

from wire import PROGRAM, all_replies, check, crash, log_files, pull, pulled, records, replies, run, send

SEGMENT = ("pipe", "--segment", "4096")
FIRST = "store/commitlog/00000000000000000000"


def place_of(reply):
    return int(reply["extFields"]["msgId"][16:], 16)


@check("a second run goes on behind the first one's records")
def _(folder):
    ids = [place_of(r) for k in range(3) for r in replies(run(send(k, b"hi"), folder)[1])]
    assert ids == [0, 108, 216] and [r["queue_offset"] for r in records(folder)] == [0, 1, 2]
    stored = [r["store"] for r in records(folder)]
    assert stored == sorted(stored)


@check("a torn or changed second record is cut off, and the next record takes its place")
def _(folder):
    run(send(0, b"hi") + send(1, b"hi"), folder)
    path = os.path.join(folder, FIRST)
    whole = open(path, "rb").read()
    for i in range(108):
        for damaged in (whole[:108 + i], whole[:108 + i] + bytes([whole[108 + i] ^ 1]) + whole[109 + i:]):
            open(path, "wb").write(damaged)
            crash(folder)
            status, out = run(send(2, b"new"), folder)
            assert status == 0 and place_of(replies(out)[0]) == 108, i
            assert [r["body"] for r in records(folder)] == [b"hi", b"new"], i


@check("damage before the last segment is status 8 and changes nothing")
def _(folder):
    assert run(send(0, b"hi") + send(1, b"hi") + send(2, b"x" * 3000) + send(3, b"x" * 3000), folder, SEGMENT)[0] == 0
    path = os.path.join(folder, FIRST)
    data = bytearray(open(path, "rb").read())
    data[120] ^= 1
    open(path, "wb").write(data)
    before = log_files(folder)
    assert len(before) == 2 and run(send(4, b"hi"), folder) == (8, b"") and log_files(folder) == before


@check("a missing segment is status 8")
def _(folder):
    run(b"".join(send(k, b"x" * 3000) for k in range(3)), folder, SEGMENT)
    os.remove(os.path.join(folder, "store/commitlog/00000000000000004096"))
    assert run(b"", folder)[0] == 8


@check("the segment's size stays that of the store: none or the same goes on, another is status 6")
def _(folder):
    assert run(send(0, b"x" * 3000), folder, SEGMENT)[0] == 0
    assert run(send(1, b"x" * 3000), folder, ("pipe", "--segment", "8192")) == (6, b"")
    assert [place_of(replies(run(send(k, b"x" * 3000), folder, words)[1])[0]) for k, words in ((1, ("pipe",)), (2, SEGMENT))] == [4096, 8192]


def run_short(data, folder, *words):
    """A run in which no file may grow past 4,096 bytes."""
    def limit():
        signal.signal(signal.SIGXFSZ, signal.SIG_IGN)
        resource.setrlimit(resource.RLIMIT_FSIZE, (4096, 4096))
    done = subprocess.run([PROGRAM, "pipe", *words], input=data, cwd=folder, stdout=subprocess.PIPE, preexec_fn=limit, timeout=120)
    return done.returncode, all_replies(done.stdout)


@check("where each write fails, each send is told so with the count, and one more that the buffer is full; then the status is 5")
def _(folder):
    run(b"", folder)
    status, told = run_short(b"".join(send(k, b"x" * 4194304) for k in range(16)), folder)
    expected = [(10, "flush %d" % (2 * k + 1)) for k in range(15)] + [(1, "disk 31")]
    assert [(r["code"], r["remark"]) for r in told] == expected, [(r["code"], r.get("remark")) for r in told]
    assert status == 5 and run(b"", folder)[0] == 0 and records(folder) == []


@check("with --flush async a send is answered before its flush, whose failure is the status alone")
def _(folder):
    run(b"", folder)
    status, told = run_short(send(0, b"x" * 5000) + send(1, b"y"), folder, "--flush", "async")
    assert (status, [r["code"] for r in told]) == (5, [0, 0])
    status, told = run_short(send(0, b"x" * 5000), folder, "--flush", "sync")
    assert (status, [r["code"] for r in told]) == (5, [10])


def pulled_back(folder, queues):
    """All that the next run lets consumers see of these queues, from each queue and offset to the place and the body."""
    found, asked = {}, {queue: 0 for queue in queues}
    while asked:
        data = b"".join(pull(0, topic, at, queueId=queue, binary=at % 2 == 1) for (topic, queue), at in asked.items())
        status, out = run(data, folder)
        assert status == 0
        for (queue, at), reply in zip(list(asked.items()), all_replies(out), strict=True):
            if reply["code"] != 0:
                assert reply["code"] in (19, 21), reply
                del asked[queue]
                continue
            for r in pulled(reply["body"]):
                found[*queue, r["queue_offset"]] = r["place"], r["body"]
            asked[queue] = int(reply["extFields"]["nextBeginOffset"])
    return found


@check("a hundred killed runs lose no acknowledged message, and each is pulled from where its reply said")
def _(folder):
    chance = random.Random(20261127)
    known, told_at, opaque = {}, {}, 0
    for _ in range(100):
        child = subprocess.Popen([PROGRAM, *SEGMENT], stdin=subprocess.PIPE, stdout=subprocess.PIPE, cwd=folder)
        sent = {}
        for _ in range(chance.randrange(1, 40)):
            opaque += 1
            sent[opaque] = b"%d " % opaque + bytes(chance.randrange(256) for _ in range(chance.randrange(0, 1500)))
        data = b"".join(send(k, body, topic="T%d" % (k % 3), queueId=str(k % 4), binary=k % 2 == 1) for k, body in sent.items())
        try:
            child.stdin.write(data)
            child.stdin.flush()
        except BrokenPipeError:
            pass
        out = child.stdout.read(1) if chance.random() < 0.8 else b""  # the others may be killed while they open
        time.sleep(chance.random() * 0.1)
        child.send_signal(signal.SIGKILL)
        out += child.stdout.read()
        child.wait()
        child.stdout.close()
        while len(out) >= 4 and len(out) >= 4 + int.from_bytes(out[:4], "big"):
            size = 4 + int.from_bytes(out[:4], "big")
            reply, out = replies(out[:size])[0], out[size:]
            assert reply["code"] == 0
            known[place_of(reply)] = sent[reply["opaque"]]
            at = "T%d" % (reply["opaque"] % 3), reply["extFields"]["queueId"], int(reply["extFields"]["queueOffset"])
            told_at[at] = place_of(reply), sent[reply["opaque"]]
    assert run(b"", folder)[0] == 0
    stored = {r["place"]: r["body"] for r in records(folder)}
    missing = [place for place, body in known.items() if stored.get(place) != body]
    assert missing == [], missing
    found = pulled_back(folder, {at[:2] for at in told_at})
    missing = [at for at, told in told_at.items() if found.get(at) != told]
    assert missing == [], missing
    assert {place for place, _ in found.values()} == set(stored)
    ends = [r["place"] for r in records(folder)]
    assert ends == sorted(ends) and len(known) > 100, len(known)


@check("a new store has the sizes that were asked for, which stay its own, and message ids tell the host")
def _(folder):
    def text():
        return open(os.path.join(folder, "store/config/format"), "rb").read()
    words = ("pipe", "--entries", "20", "--host", "10.1.2.3:4000", "--segment", "8192", "--slots", "7")
    status, out = run(send(0, b"hi"), folder, words)
    assert status == 0 and replies(out)[0]["extFields"]["msgId"] == "0A01020300000FA00000000000000000"
    assert text() == b"mq_broker 1 8192 7 20\n"
    assert run(b"", folder)[0] == 0 and run(b"", folder, words)[0] == 0 and text() == b"mq_broker 1 8192 7 20\n"
    for wrong in (("--entries", "21"), ("--slots", "8"), ("--segment", "4096")):
        assert run(b"", folder, ("pipe", *wrong)) == (6, b""), wrong


@check("arguments that don't fit are status 1, and nothing is made")
def _(folder):
    rows = [(), ("pip",), ("pipe", "--flush"), ("pipe", "--flush", "often"), ("pipe", "--host", "1.2.3:4"), ("pipe", "--host", "1.2.3.4:0"), ("pipe", "--slots", "0"),
            ("pipe", "--entries", "1"), ("pipe", "--segment", "4095"), ("pipe", "--segment", "04096"), ("pipe", "--links", "1"),
            ("pipe", "--flush", "sync", "--flush", "sync")]
    for words in rows:
        assert run(send(0, b"hi"), folder, words) == (1, b""), words
    assert os.listdir(folder) == []
