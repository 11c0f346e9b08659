#!/usr/bin/env python3
"""Runs the real program in empty folders and looks at what it writes: checks/end_to_end.py PROGRAM.

Frames are made and records are read here by code of their own. Each check prints its name; the first that fails ends it.
"""
import json
import os
import resource
import signal
import subprocess
import tempfile

from wire import PROGRAM, all_replies, check, frame, properties, pull, pulled, records, replies, run, send

HERE = os.path.dirname(os.path.abspath(__file__))
SAMPLE = open(os.path.join(HERE, "..", "crates", "mq_broker", "stdin"), "rb").read()
REPLY = open(os.path.join(HERE, "..", "crates", "mq_broker", "stdout"), "rb").read()
LOG = "store/commitlog/00000000000000000000"


def log(folder):
    with open(os.path.join(folder, LOG), "rb") as file:
        return file.read()


@check("an empty input makes the format and no log")
def _(folder):
    assert run(b"", folder) == (0, b"")
    assert open(folder + "/store/config/format").read() == "mq_broker 1 1073741824 65536 262144\n"
    assert not os.path.exists(os.path.join(folder, LOG))


@check("the sample frame gets its reply, and its record is the documented one")
def _(folder):
    assert run(SAMPLE, folder) == (0, REPLY)
    known = bytes.fromhex(
        "0000006CDAA320A758932AAC0000000000000000000000000000000000000000000000000000000000000000000003E87F00000100000000"
        "00000000000007D07F00000100002A9F000000000000000000000000000000026869" "0154000E5345414C01")
    stored = log(folder)
    assert len(stored) == 108 and stored[:56] == known[:56] and stored[64:99] == known[64:99]
    assert len(records(folder)) == 1


@check("a frame that comes a byte at a time is served alike")
def _(folder):
    child = subprocess.Popen([PROGRAM, "pipe"], stdin=subprocess.PIPE, stdout=subprocess.PIPE, cwd=folder)
    for byte in SAMPLE:
        child.stdin.write(bytes([byte]))
        child.stdin.flush()
    child.stdin.close()
    assert child.stdout.read() == REPLY and child.wait() == 0


@check("bytes that end inside a frame, and a frame too short, are status 2")
def _(folder):
    assert run(SAMPLE + b"\0\0\0", folder) == (2, REPLY)
    with tempfile.TemporaryDirectory() as other:
        assert run(b"\0\0\0\3", other) == (2, b"")


@check("what isn't served is answered with 3, one-way requests and responses not at all")
def _(folder):
    header = {"code": 999, "extFields": {}, "flag": 0, "opaque": 9}
    want = (b'\0\0\0\x85\0\0\0\x81{"code":3,"extFields":{},"flag":1,"language":"OTHER","opaque":9,"remark":"code 999",'
            b'"serializeTypeCurrentRPC":"JSON","version":0}')
    assert run(frame(header), folder) == (0, want)
    for flag in (1, 2):
        with tempfile.TemporaryDirectory() as other:
            assert run(frame({**header, "flag": flag}), other) == (0, b"")


@check("sends are counted by topic and stand one behind another; refused ones take no place")
def _(folder):
    data = (send(1, b"a") + send(2, b"bb", topic="U") + send(3, b"", topic="a b") + send(4, b"c") + send(5, b"d", flag=2)
            + send(6, b"", queueId="4") + send(7, b"e", topic="SCHEDULE_TOPIC_XXXX"))
    status, out = run(data, folder)
    assert status == 0
    told = replies(out)
    assert [(r["opaque"], r["code"]) for r in told] == [(1, 0), (2, 0), (3, 13), (4, 0), (6, 1), (7, 16)]
    stored = records(folder)
    assert [r["body"] for r in stored] == [b"a", b"bb", b"c", b"d"]
    assert [r["queue_offset"] for r in stored] == [0, 0, 1, 2]
    ids = [r["extFields"]["msgId"] for r in told if r["code"] == 0]
    assert ids == ["7F00000100002A9F%016X" % stored[k]["place"] for k in (0, 1, 2)]


@check("two messages are sent and pulled back, in both header forms, by the same run and by the next one")
def _(folder):
    for binary in (False, True):
        topic = "B" if binary else "J"
        sends = [send(k, b"body %d" % k, topic=topic, binary=binary, properties=properties([("KEYS", "k%d" % k)])) for k in range(2)]
        for requests in ([*sends, pull(2, topic, 0, binary=binary)], [pull(2, topic, 0, binary=binary)]):
            status, out = run(b"".join(requests), folder)
            told = all_replies(out)
            assert status == 0 and [(r["binary"], r["code"]) for r in told] == [(binary, 0)] * len(requests), told
            assert [r["opaque"] for r in told] == list(range(3 - len(requests), 3))
            assert told[-1]["extFields"] == {"maxOffset": "2", "minOffset": "0", "nextBeginOffset": "2", "suggestWhichBrokerId": "0"}
            found = pulled(told[-1]["body"])
            assert [(r["topic"], r["queue_offset"], r["body"], r["props"]) for r in found] == [
                (topic, k, b"body %d" % k, properties([("KEYS", "k%d" % k)])) for k in range(2)]
            assert [r["place"] for r in found] == [r["place"] for r in records(folder) if r["topic"] == topic]


@check("the record that was sent is pulled with its documented header, and pulls past it or of what isn't there have their codes")
def _(folder):
    rows = [(pull(9, "T", 1), 19, "1"), (pull(9, "T", 2), 21, "1"), (pull(9, "T", -1), 21, "0"), (pull(9, "T", 0, queueId="1"), 19, "0"),
            (pull(9, "T", 0, queueId="4"), 1, "queue"), (pull(9, "U", 0), 17, "no topic"),
            (pull(9, "RMQ_SYS_TRANS_HALF_TOPIC", 0), 16, "system topic"), (pull(9, "T", 0, expressionType="SQL92"), 1, "expression")]
    status, out = run(SAMPLE + pull(8, "T", 0) + b"".join(row[0] for row in rows), folder)
    assert status == 0 and out[:len(REPLY)] == REPLY and out[len(REPLY):len(REPLY) + 8] == bytes.fromhex("0000012D000000BD")
    first, *told = all_replies(out)[1:]
    assert first["body"] == log(folder) and first["extFields"]["nextBeginOffset"] == "1"
    for (_, code, said), reply in zip(rows, told, strict=True):
        has = reply["extFields"]["nextBeginOffset"] if code in (19, 21) else reply["remark"]
        assert (reply["code"], has, reply["body"]) == (code, said, b""), reply


@check("a pull chooses by tags")
def _(folder):
    tags = [("TagA",), ("TagB",), ("TagC",), ()]
    sends = [send(k, b"%d" % k, properties=properties([("TAGS", tag) for tag in has])) for k, has in enumerate(tags)]
    rows = [(32, "TagA || TagB"), (32, "TagZ"), (1, "TagB")]
    asked = [pull(4, "T", 0, most=most, sysFlag="4", subscription=text) for most, text in rows]
    status, out = run(b"".join(sends + asked), folder)
    told = all_replies(out)[4:]
    assert status == 0 and [(r["code"], r["extFields"]["nextBeginOffset"]) for r in told] == [(0, "4"), (20, "4"), (0, "2")], told
    assert [[r["body"] for r in pulled(r["body"])] for r in told] == [[b"0", b"1"], [], [b"1"]]


@check("other words are status 1")
def _(folder):
    for words in ((), ("pipe", "x"), ("pipe", "--segment"), ("pipe", "--segment", "4095"), ("pipe", "--segment", "04096"), ("dumps",),
                  ("pipe", "--flush", "often"), ("pipe", "--host", "127.0.0.1"), ("pipe", "--segment", "4096", "--segment", "4096")):
        assert run(b"", folder, words) == (1, b""), words


@check("a file in a store without a format is status 6 and stays as it is")
def _(folder):
    os.makedirs(folder + "/store/commitlog")
    open(os.path.join(folder, LOG), "wb").write(b"other")
    assert run(SAMPLE, folder) == (6, b"") and log(folder) == b"other"


@check("a file beside the log's folder is one too, and the folder without it is a new store")
def _(folder):
    os.makedirs(folder + "/store")
    open(folder + "/store/x", "wb").write(b"other")
    assert run(SAMPLE, folder) == (6, b"") and open(folder + "/store/x", "rb").read() == b"other"
    os.remove(folder + "/store/x")
    assert os.listdir(folder + "/store") == [] and run(SAMPLE, folder) == (0, REPLY)


@check("a second process on the store is refused with status 5 and harms nothing")
def _(folder):
    first = subprocess.Popen([PROGRAM, "pipe"], stdin=subprocess.PIPE, stdout=subprocess.PIPE, cwd=folder)
    first.stdin.write(SAMPLE)
    first.stdin.flush()
    assert first.stdout.read(len(REPLY)) == REPLY
    before = log(folder)
    assert run(SAMPLE, folder) == (5, b"") and log(folder) == before
    first.stdin.close()
    assert first.wait() == 0


@check("a closed standard output is status 4")
def _(folder):
    read, write = os.pipe()
    os.close(read)
    child = subprocess.Popen([PROGRAM, "pipe"], stdin=subprocess.PIPE, stdout=write, cwd=folder,
                             preexec_fn=lambda: signal.signal(signal.SIGPIPE, signal.SIG_IGN))
    os.close(write)
    child.stdin.write(SAMPLE)
    child.stdin.close()
    assert child.wait() == 4


@check("a store of another format is status 6 and stays as it is")
def _(folder):
    os.makedirs(folder + "/store/config")
    for text in ("mq_broker 2 4096 65536 262144\n", "mq_broker 1 4096 65536 262144", "mq_broker 1 4095 65536 262144\n", ""):
        with open(folder + "/store/config/format", "w") as file:
            file.write(text)
        assert run(SAMPLE, folder) == (6, b"") and not os.path.exists(os.path.join(folder, LOG)), text


def small_files():
    signal.signal(signal.SIGXFSZ, signal.SIG_IGN)
    resource.setrlimit(resource.RLIMIT_FSIZE, (4096, resource.RLIM_INFINITY))


@check("a full disk is told with reply 10 each time, the reading goes on, and the last flush that fails is status 5")
def _(folder):
    data = b"".join(send(k, b"x" * 900) for k in range(8)) + pull(8, "T", 0)
    done = subprocess.run([PROGRAM, "pipe"], input=data, cwd=folder, stdout=subprocess.PIPE, preexec_fn=small_files, timeout=60)
    told = all_replies(done.stdout)
    good = [r for r in told[:8] if r["code"] == 0]
    assert done.returncode == 5 and len(told) == 9 and 0 < len(good) < 8 and told[:len(good)] == good, told
    assert [(r["code"], r["remark"]) for r in told[len(good):8]] == [(10, f"flush {1 + 2 * k}") for k in range(8 - len(good))]
    assert told[8]["code"] == 0 and len(pulled(told[8]["body"])) == len(good)
    places = [int(r["extFields"]["msgId"][16:], 16) for r in good]
    assert [r["place"] for r in records(folder, whole=False)][:len(good)] == places
    status, out = run(pull(0, "T", 0), folder)
    assert status == 0 and [r["place"] for r in pulled(all_replies(out)[0]["body"])][:len(good)] == places


@check("records that could not be flushed stay pending, are flushed with the next ones once there is room, and are then pulled")
def _(folder):
    child = subprocess.Popen([PROGRAM, "pipe"], stdin=subprocess.PIPE, stdout=subprocess.PIPE, cwd=folder, preexec_fn=small_files)
    child.stdin.write(b"".join(send(k, b"%d" % k + b"x" * 900) for k in range(6)))
    child.stdin.flush()
    heard = b""
    while len(all_replies(heard, whole=False)) < 6:
        heard += os.read(child.stdout.fileno(), 65536)
    codes = [r["code"] for r in all_replies(heard)]
    assert codes == sorted(codes) and set(codes) == {0, 10}, codes
    resource.prlimit(child.pid, resource.RLIMIT_FSIZE, (1 << 20, resource.RLIM_INFINITY))
    out, _ = child.communicate(send(6, b"last") + pull(7, "T", 0), timeout=60)
    told = all_replies(out)
    assert child.returncode == 0 and [r["code"] for r in told] == [0, 0] and told[0]["extFields"]["queueOffset"] == "6", told
    assert [r["body"] for r in pulled(told[1]["body"])] == [b"%d" % k + b"x" * 900 for k in range(6)] + [b"last"]
    assert [r["queue_offset"] for r in records(folder)] == list(range(7))


@check("under strace the sync of the log stands between the write of the record and that of its reply")
def _(folder):
    if subprocess.run(["sh", "-c", "command -v strace"], stdout=subprocess.DEVNULL).returncode != 0:
        print("skipped, no strace:", end=" ")
        return
    trace = os.path.join(folder, "trace")
    done = subprocess.run(["strace", "-o", trace, "-e", "trace=pwrite64,fdatasync,fsync,write", PROGRAM, "pipe"], input=SAMPLE,
                          cwd=folder, stdout=subprocess.PIPE, stderr=subprocess.PIPE, timeout=60)
    if done.returncode != 0 or done.stdout != REPLY:
        print("skipped, strace is refused:", end=" ")
        return
    lines = open(trace).read().splitlines()
    wrote = max(i for i, line in enumerate(lines) if line.startswith("pwrite64("))
    answered = max(i for i, line in enumerate(lines) if line.startswith("write(1,"))
    between = [line for line in lines[wrote + 1:answered] if line.startswith(("fdatasync(", "fsync("))]
    assert len(between) >= 2, lines
