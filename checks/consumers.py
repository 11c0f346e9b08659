#!/usr/bin/env python3
"""What consumers of the real program find once it was started again: checks/consumers.py PROGRAM.

A group's offset outlives the broker's end, and one that is killed leaves the offsets of the last end. The two kept files are compared
with texts that are made here.
"""
import os
import random
import resource
import signal
import subprocess
import time

from wire import PROGRAM, all_replies, check, commit, crash, frame, pull, pulled, records, run, send, stored

OFFSETS = "store/config/consumerOffset.json"
TOPICS = "store/config/topics.json"
LOG = "store/commitlog/00000000000000000000"


def answers(data, folder, words=("pipe",)):
    status, out = run(data, folder, words)
    assert status == 0, status
    return all_replies(out)


def text_of(folder, name):
    path = os.path.join(folder, name)
    return open(path, "rb").read() if os.path.exists(path) else None


@check("a consumer resumes at its group's offset once the broker was ended and started again, and each group has its own")
def _(folder):
    told = answers(b"".join(send(k, b"%d" % k) for k in range(5)) + pull(5, "T", 0, 3) + commit(6, 3) + commit(7, 1, group="H", binary=True), folder)
    assert [r["code"] for r in told] == [0] * 8 and told[5]["extFields"]["nextBeginOffset"] == "3"
    told = answers(stored(0) + stored(1, group="H") + stored(2, group="I") + stored(3, queue=1), folder)
    assert [(r["code"], r["extFields"].get("offset")) for r in told] == [(0, "3"), (0, "1"), (22, None), (22, None)]
    told = answers(pull(0, "T", 3), folder)
    assert [r["body"] for r in pulled(told[0]["body"])] == [b"3", b"4"]


@check("a pull's commit bit stores an offset that outlives the broker too, and one past the end is cut to it")
def _(folder):
    answers(send(0, b"a") + send(1, b"b") + pull(2, "T", 1, sysFlag="1", commitOffset="1") + commit(3, 9, group="H"), folder)
    told = answers(stored(0, group="C") + stored(1, group="H"), folder)
    assert [(r["code"], r["extFields"].get("offset")) for r in told] == [(0, "1"), (0, "2")]


@check("a run of which nothing changes leaves the kept files as they are, and they name each offset and each topic")
def _(folder):
    answers(send(0, b"a", topic="B") + send(1, b"b", topic="A") + commit(2, 1, topic="A") + commit(3, 1, group="F", topic="B"), folder)
    kept = text_of(folder, OFFSETS), text_of(folder, TOPICS)
    assert kept == (b'{"offsetTable":{"A@G":{"0":1},"B@F":{"0":1}}}', b'{"topicConfigTable":{"A":{"queues":4},"B":{"queues":4}}}'), kept
    answers(b"", folder)
    assert (text_of(folder, OFFSETS), text_of(folder, TOPICS)) == kept


@check("a topic that was made without a message is known again, with its number of queues")
def _(folder):
    made = frame({"code": 17, "extFields": {"topic": "M", "readQueueNums": "3", "writeQueueNums": "3", "perm": "6", "defaultTopic": "TBW102",
                                            "topicFilterType": "SINGLE_TAG", "topicSysFlag": "0", "order": "false"},
                  "flag": 0, "opaque": 0, "version": 395})
    assert answers(made, folder)[0]["code"] == 0
    told = answers(send(0, b"a", topic="M", queueId="2", defaultTopic="") + send(1, b"a", topic="M", queueId="3", defaultTopic=""), folder)
    assert [r["code"] for r in told] == [0, 1], told


@check("a kept file that isn't of its form is status 8, and nothing is changed")
def _(folder):
    answers(send(0, b"a") + commit(1, 1), folder)
    log = records(folder)
    for name in (OFFSETS, TOPICS):
        good = text_of(folder, name)
        for bad in (b"", b"{", b" " + good, good + b"\n", good.replace(b":", b": ", 1), good[:-1]):
            with open(os.path.join(folder, name), "wb") as file:
                file.write(bad)
            assert run(send(2, b"b") + commit(3, 2), folder) == (8, b""), (name, bad)
            assert text_of(folder, name) == bad and records(folder) == log, (name, bad)
        with open(os.path.join(folder, name), "wb") as file:
            file.write(good)
    assert answers(stored(0), folder)[0]["extFields"]["offset"] == "1"


@check("an offset past the end of a log that lost its last record is cut to it when it is loaded")
def _(folder):
    answers(send(0, b"a") + send(1, b"b") + commit(2, 2) + commit(3, 1, group="H"), folder)
    path = os.path.join(folder, LOG)
    os.truncate(path, os.path.getsize(path) - 1)
    crash(folder)
    told = answers(stored(0) + stored(1, group="H"), folder)
    assert [r["extFields"]["offset"] for r in told] == ["1", "1"]
    assert text_of(folder, OFFSETS) == b'{"offsetTable":{"T@G":{"0":1},"T@H":{"0":1}}}'


@check("groups and topics of every legal name are loaded again")
def _(folder):
    groups = ("a@b", "@", "\"\\/", "\u00e4\u4f60\U0001f600", "x" * 120, "%7F \x7f\t")
    topics = ("T", "A-b_c|%9", "t" * 127)
    pairs = [(group, topic) for group in groups for topic in topics]
    answers(b"".join(send(k, b"a", topic=topic) for k, topic in enumerate(topics))
            + b"".join(commit(k, 1, group=group, topic=topic) for k, (group, topic) in enumerate(pairs)), folder)
    told = answers(b"".join(stored(k, group=group, topic=topic) for k, (group, topic) in enumerate(pairs)), folder)
    assert [(r["code"], r["extFields"].get("offset")) for r in told] == [(0, "1")] * len(pairs), told


@check("a run whose stream breaks off inside a frame leaves its offsets too")
def _(folder):
    assert run(send(0, b"a") + commit(1, 1) + b"\0\0\0", folder)[0] == 2
    assert answers(stored(0), folder)[0]["extFields"]["offset"] == "1"


def small_files():
    signal.signal(signal.SIGXFSZ, signal.SIG_IGN)
    resource.setrlimit(resource.RLIMIT_FSIZE, (4096, resource.RLIM_INFINITY))


@check("a kept file that can't be replaced is status 10 once all is flushed, and stays as it was")
def _(folder):
    answers(send(0, b"a") + commit(1, 1), folder)
    kept = text_of(folder, OFFSETS)
    data = b"".join(commit(k, 1, group="%0100d" % k) for k in range(40))
    done = subprocess.run([PROGRAM, "pipe"], input=data, cwd=folder, stdout=subprocess.PIPE, preexec_fn=small_files, timeout=60)
    assert done.returncode == 10 and [r["code"] for r in all_replies(done.stdout)] == [0] * 40, done.returncode
    assert text_of(folder, OFFSETS) == kept and answers(stored(0), folder)[0]["extFields"]["offset"] == "1"


@check("fifty killed runs leave the offset of the last run that ended, and one that ends keeps its own")
def _(folder):
    chance = random.Random(20261128)
    answers(b"".join(send(k, b"%d" % k) for k in range(60)), folder)
    last = None
    for k in range(50):
        child = subprocess.Popen([PROGRAM, "pipe"], stdin=subprocess.PIPE, stdout=subprocess.PIPE, cwd=folder)
        child.stdin.write(commit(0, k + 1))
        child.stdin.flush()
        assert child.stdout.read(1) != b""
        time.sleep(chance.random() * 0.01)
        child.send_signal(signal.SIGKILL)
        child.wait()
        child.stdout.close()
        if k % 5 == 4:
            answers(commit(0, k + 1), folder)
            last = str(k + 1)
        told = answers(stored(0), folder)[0]
        assert (told["code"], told["extFields"].get("offset")) == ((22, None) if last is None else (0, last)), (k, told)
