#!/usr/bin/env python3
"""The tools of an operator over stores of every kind, and the generator: checks/tools.py PROGRAM.

What `dump` and `verify` write stands beside what the replies said and what is read of the log's files by code of its own. Each check
prints its name; the first that fails ends it.
"""
import os
import signal
import subprocess
import sys
import zlib

HERE = os.path.dirname(os.path.abspath(__file__))
sys.path.insert(0, os.path.join(HERE, "..", "clients", "python"))
from mq_client import Connection, Decision, Producer, TransactionProducer
from wire import PROGRAM, all_replies, check, log_files, properties, records, replies, run, send

SMALL = ("pipe", "--segment", "4096")
FIRST = "commitlog/" + "0" * 20
TOOLS = ("dump", "verify")
MOST_MEMORY = 32 << 20  # bytes that a tool may take, over a log of any size; `verify` may take tables of its records too
A_RECORD = 160

# Runs the arguments, and prints the status, the most memory and how many bytes were read. A process of its own, since the memory of
# whoever starts a program counts as the program's.
MEASURED = """
import os, sys
pid = os.spawnv(os.P_NOWAIT, sys.argv[1], sys.argv[1:])
os.waitid(os.P_PID, pid, os.WEXITED | os.WNOWAIT)
read = open(f"/proc/{pid}/io").readline().split()[1]
_, status, used = os.wait4(pid, 0)
print(status, used.ru_maxrss << 10, read, file=sys.stderr)
"""


def call(folder, *words, **more):
    """The status, and what was written on standard output and standard error."""
    done = subprocess.run([PROGRAM, *words], cwd=folder, stdin=subprocess.DEVNULL, stdout=subprocess.PIPE, stderr=subprocess.PIPE,
                          timeout=60, **more)
    return done.returncode, done.stdout.decode(), done.stderr.decode()


def lines_of(found):
    """What `dump` writes of these records."""
    return "".join(f"{r['place']} {r['topic']} {r['queue']} {r['queue_offset']} {r['size']}\n" for r in found)


def end_of(found):
    return found[-1]["place"] + found[-1]["size"] if found else 0


def sound_of(found):
    """What `verify` writes of these records."""
    return f"records {len(found)} end {end_of(found)}\nequal\n"


def everything(folder):
    """The bytes of each file of a store."""
    return {os.path.join(at, name): open(os.path.join(at, name), "rb").read() for at, _, names in os.walk(folder) for name in names}


def want_sound(folder, found, *words):
    """Both tools tell these records, with status 0 and no word on standard error, and leave the store as it is."""
    before = everything(folder)
    assert call(folder, "dump", *words) == (0, lines_of(found), "")
    assert call(folder, "verify", *words) == (0, sound_of(found), "")
    assert everything(folder) == before


def fill(folder, count=2, body=b"hi", words=("pipe",)):
    status, out = run(b"".join(send(k, body) for k in range(count)), folder, words)
    assert status == 0 and [r["code"] for r in replies(out)] == [0] * count, (status, out)


def change(folder, file, at, byte):
    with open(os.path.join(folder, "store", file), "r+b") as log:
        log.seek(at)
        log.write(bytes([byte]))


@check("one record is one line, and verify tells how many there are and where they end, and that tables of them equal them")
def _(folder):
    fill(folder, 1)
    assert call(folder, "dump") == (0, "0 T 0 0 108\n", "")
    assert call(folder, "verify") == (0, "records 1 end 108\nequal\n", "")


@check("the lines are those of all records: plain, delayed and half messages, and what settles these, over many segments")
def _(folder):
    half = send(0, b"half", properties=properties([("TRAN_MSG", "true")]))
    data = half + b"".join(
        send(k, b"x" * (k % 7 * 300), topic="TUV"[k % 3], queueId=str(k % 4),
             properties=properties([("DELAY", "18")] if k % 5 == 0 else [("KEYS", str(k))])) for k in range(1, 40))
    status, out = run(data, folder, SMALL)
    assert status == 0
    found = records(folder)
    told = [(int(r["extFields"]["msgId"][16:], 16), int(r["extFields"]["queueOffset"])) for r in all_replies(out)]
    assert len(log_files(folder)) > 3 and [(r["place"], r["queue_offset"]) for r in found] == told
    assert {r["topic"] for r in found} == {"T", "U", "V", "SCHEDULE_TOPIC_XXXX", "RMQ_SYS_TRANS_HALF_TOPIC"}
    want_sound(folder, found)


@check("what the Python client sent is where its replies said: delayed, half and committed messages too")
def _(folder):
    with Connection(f"pipe:{PROGRAM} pipe --store {folder}/store") as connection:
        with Producer(connection, "P", queues=3) as producer:
            sent = [producer.send("Orders", b"%d" % k, delay_level=18 if k == 2 else 0) for k in range(4)]
        with TransactionProducer(connection, "Q") as producer:
            sent.append(producer.send_half("Transfers", b"five"))
            producer.end_transaction(sent[-1], Decision.COMMIT)
    status, out, said = call(folder, "dump")
    rows = [line.split(" ") for line in out.splitlines()]
    assert (status, said) == (0, "") and len(rows) == 7, (status, out, said)
    assert [(row[0], row[3]) for row in rows[:5]] == [(str(int(one.message_id[16:], 16)), str(one.queue_offset)) for one in sent], (sent, rows)
    assert [row[1] for row in rows] == ["Orders", "Orders", "SCHEDULE_TOPIC_XXXX", "Orders", "RMQ_SYS_TRANS_HALF_TOPIC", "Transfers",
                                        "RMQ_SYS_TRANS_OP_HALF_TOPIC"], rows
    want_sound(folder, records(folder))


@check("a log whose last record is cut or changed has the records before it, and nothing is cut off")
def _(folder):
    fill(folder)
    path = os.path.join(folder, "store", FIRST)
    whole = open(path, "rb").read()
    for data in (whole[:108], whole[:109], whole[:215], whole[:150] + bytes([whole[150] ^ 1]) + whole[151:], whole + b"\0" * 9):
        open(path, "wb").write(data)
        want_sound(folder, records(folder, whole=False))
    open(path, "wb").write(whole)
    want_sound(folder, records(folder))


@check("damage before the last segment is status 8 with a line that names the file and the place, after the lines of the records before it")
def _(folder):
    fill(folder, 3, b"x" * 1500, SMALL)
    change(folder, FIRST, 1700, 1)
    before = everything(folder)
    place = records(folder, whole=False)[0]["size"]
    line = f"damaged {FIRST} {place}\n"
    for tool, text in (("dump", f"0 T 0 0 {place}\n" + line), ("verify", line)):
        status, out, said = call(folder, tool)
        assert (status, out) == (8, text) and f"store/{FIRST} is damaged at {place} (status 8): " in said, (tool, status, out, said)
    assert everything(folder) == before


@check("zeros behind the last record are neither records nor damage, and the next opening cuts them")
def _(folder):
    fill(folder, 2)
    with open(os.path.join(folder, "store", FIRST), "ab") as log:
        log.write(bytes(4096))
    assert call(folder, "dump") == (0, "0 T 0 0 108\n108 T 0 1 108\n", "")
    assert call(folder, "verify") == (0, "records 2 end 216\nequal\n", "")
    assert [len(data) for _, data in log_files(folder)] == [216 + 4096]
    fill(folder, 1)
    assert [len(data) for _, data in log_files(folder)] == [324] and len(records(folder)) == 3


@check("a missing segment is status 8, named by the file that is where it should be")
def _(folder):
    fill(folder, 3, b"x" * 3000, SMALL)
    os.remove(os.path.join(folder, "store", "commitlog", "%020d" % 4096))
    assert call(folder, "verify")[:2] == (8, "damaged commitlog/%020d 4096\n" % 8192)
    assert call(folder, "dump")[:2] == (8, "0 T 0 0 3106\ndamaged commitlog/%020d 4096\n" % 8192)


@check("a foreign store is status 6 with a line that names what shows it, and it is left as it is")
def _(folder):
    os.makedirs(folder + "/store")
    open(folder + "/store/x", "w").close()
    before = everything(folder)
    for tool in TOOLS:
        status, out, said = call(folder, tool)
        assert (status, out) == (6, "foreign x\n") and "store/x is not of this program" in said, (tool, status, out, said)
    assert everything(folder) == before
    os.remove(folder + "/store/x")
    os.makedirs(folder + "/store/config")
    with open(folder + "/store/config/format", "w") as text:
        text.write("other\n")
    for tool in TOOLS:
        assert call(folder, tool)[:2] == (6, "foreign format\n")


@check("a store that a broker has is status 5, and nothing is written")
def _(folder):
    broker = subprocess.Popen([PROGRAM, "pipe"], stdin=subprocess.PIPE, stdout=subprocess.PIPE, cwd=folder)
    broker.stdin.write(send(0, b"hi"))
    broker.stdin.flush()
    assert broker.stdout.read(4)
    for tool in TOOLS:
        status, out, said = call(folder, tool)
        assert (status, out) == (5, "") and "another process has the store" in said and said.count("\n") == 1, (tool, status, out, said)
    broker.communicate()
    want_sound(folder, records(folder))


@check("a folder that is absent is refused, and nothing is made")
def _(folder):
    for tool in TOOLS:
        status, out, said = call(folder, tool, "--store", tool)
        assert (status, out) == (5, "") and "it is not there" in said and os.listdir(folder) == [], (tool, status, out, said)


@check("--store is the only option, what doesn't fit is status 1 and makes nothing, and the help has all")
def _(folder):
    for tool in TOOLS:
        for words, said in ((("--segment", "4096"), '"--segment" is no option'), (("--store",), '"--store" has no value'),
                            (("--store", ""), '"" is no value of --store'), (("--store", "a", "--store", "b"), '"--store" is given twice')):
            status, out, line = call(folder, tool, *words)
            assert (status, out) == (1, "") and said in line, (tool, words, status, line)
    for tool in (*TOOLS, "gen"):
        status, out, said = call(folder, tool, "--help")
        assert (status, said) == (0, "") and out.startswith(f"mq_broker {tool} ") and "--store" in out and "--host" not in out, out
        assert f"  {tool} " in call(folder, "--help")[1]
    assert os.listdir(folder) == []


@check("where standard output can't be written the status is 4")
def _(folder):
    fill(folder)
    for tool in TOOLS:
        read, write = os.pipe()
        os.close(read)
        done = subprocess.run([PROGRAM, tool], cwd=folder, stdout=write, stderr=subprocess.PIPE, timeout=60,
                              preexec_fn=lambda: signal.signal(signal.SIGPIPE, signal.SIG_IGN))
        os.close(write)
        assert done.returncode == 4 and b"standard output failed (status 4)" in done.stderr, (tool, done)


def record_bytes(place, number, body):
    """A record of queue 0 of topic T at this place, with this number in its queue, by code of its own."""
    head = bytes.fromhex("DAA320A7") + (zlib.crc32(body) & 0x7FFFFFFF).to_bytes(4, "big") + bytes(8) + number.to_bytes(8, "big")
    head += place.to_bytes(8, "big") + bytes(4) + (1000).to_bytes(8, "big") + bytes.fromhex("7F00000100000000")
    head += (2000).to_bytes(8, "big") + bytes.fromhex("7F00000100002A9F") + bytes(12) + len(body).to_bytes(4, "big")
    front = (106 + len(body)).to_bytes(4, "big") + head + body + b"\x01T\x00\x0ESEAL\x01"
    return front + b"%08X\x02" % zlib.crc32(front + b"00000000\x02")


@check("a store of any size is read in bounded memory: each byte of its log once by dump, and twice by verify, which has tables of it")
def _(folder):
    count, body = 100000, b"x" * 150
    assert call(folder, "pipe")[0] == 0 and call(folder, "verify") == (0, "records 0 end 0\nequal\n", "")
    os.mkdir(folder + "/store/commitlog")
    with open(os.path.join(folder, "store", FIRST), "wb") as log:
        for k in range(count):
            log.write(record_bytes(k * 256, k, body))
    found = records(folder)
    assert len(found) == count
    size = sum(len(data) for _, data in log_files(folder))
    for tool, text, most, times in (("dump", lines_of(found), MOST_MEMORY, 1), ("verify", sound_of(found), MOST_MEMORY + count * A_RECORD, 2)):
        with open(folder + "/out", "wb") as out:
            done = subprocess.run([sys.executable, "-SEc", MEASURED, PROGRAM, tool], cwd=folder, stdout=out, stderr=subprocess.PIPE, check=True)
        status, memory, read = map(int, done.stderr.split())
        assert status == 0 and open(folder + "/out").read() == text
        assert memory < most and read < (times + 0.05) * size, (tool, memory, read, size)


# What the generator tells of 100,000 items from start 7 on.
SUMMARY = """gen 100000 7
records 130000
queue gen 0 20000
queue gen 1 20000
queue gen 2 20000
queue gen 3 20000
halves 20000 committed 10000 rolledback 10000 open 0
delayed 10000 delivered 10000
pulls 10000 found 9900
replay equal
"""


def summary_of(items, start):
    """What the generator tells of so many items, by counting them here."""
    kinds = [i % 10 for i in range(items)]
    shown = [kinds[i] < 7 or kinds[i] == 9 for i in range(items)]
    queues = [sum(1 for i in range(items) if shown[i] and (i + start) % 4 == queue) for queue in range(4)]
    commits, backs, pulls, delays = (kinds.count(kind) for kind in (6, 7, 8, 9))
    dispatched, found = set(), 0
    for i in range(items):
        if i and i % 1000 == 0:
            dispatched = {(k + start) % 4 for k in range(i) if kinds[k] < 7}
        found += kinds[i] == 8 and (i + start) % 4 in dispatched
    plain = sum(kind < 6 for kind in kinds)
    return "".join(line + "\n" for line in (
        f"gen {items} {start}", f"records {plain + 3 * commits + 2 * backs + 2 * delays}",
        *(f"queue gen {queue} {queues[queue]}" for queue in range(4)),
        f"halves {commits + backs} committed {commits} rolledback {backs} open 0", f"delayed {delays} delivered {delays}",
        f"pulls {pulls} found {found}", "replay equal"))


@check("gen fills an empty store by 100,000 items, tells what it holds, and both tools find so")
def _(folder):
    assert summary_of(100000, 7) == SUMMARY
    assert call(folder, "gen", "100000", "7") == (0, SUMMARY, "")
    status, out, said = call(folder, "dump")
    rows = [line.split(" ") for line in out.splitlines()]
    assert (status, said, len(rows)) == (0, "", 130000)
    for topic, count in (("gen", 80000), ("RMQ_SYS_TRANS_HALF_TOPIC", 20000), ("RMQ_SYS_TRANS_OP_HALF_TOPIC", 20000),
                         ("SCHEDULE_TOPIC_XXXX", 10000)):
        assert sum(row[1] == topic for row in rows) == count, topic
    end = int(rows[-1][0]) + int(rows[-1][4])
    assert call(folder, "verify") == (0, f"records 130000 end {end}\nequal\n", "")


@check("gen tells the counts of any number of items from any start on, and nothing is pending at its end")
def _(folder):
    for items, start in ((1, 0), (7, 1000000), (10, 3), (1000, 2), (1009, 1), (2500, 5)):
        store = f"{items}-{start}"
        assert call(folder, "gen", str(items), str(start), "--store", store) == (0, summary_of(items, start), ""), (items, start)
        assert call(folder, "verify", "--store", store)[0] == 0


@check("a store that has records is status 6 with the line foreign records, and is left as it is; one without is filled")
def _(folder):
    fill(folder)
    before = everything(folder)
    status, out, said = call(folder, "gen", "10", "0")
    assert (status, out) == (6, "foreign records\n") and "store has records (status 6): " in said, (status, out, said)
    assert everything(folder) == before
    assert call(folder, "pipe", "--store", "other")[0] == 0
    assert call(folder, "verify", "--store", "other") == (0, "records 0 end 0\nequal\n", "")
    assert call(folder, "gen", "10", "0", "--store", "other") == (0, summary_of(10, 0), "")
    status, out, said = call(folder, "gen", "10", "0", "--store", "other")
    assert (status, out) == (6, "foreign records\n")


@check("gen wants its two numbers and no option but --store: else the status is 1, with the argument, and nothing is made")
def _(folder):
    for words, said in (((), '"gen" has no value'), (("0", "0"), '"0" is no value of N 1..1000000'), (("1000001", "0"), '"1000001" is no value of N'),
                        (("x", "0"), '"x" is no value of N'), (("1",), '"1" has no value'), (("1", "1000001"), '"1000001" is no value of START 0..1000000'),
                        (("1", "-1"), '"-1" is no value of START'), (("1", "0", "--segment", "4096"), '"--segment" is no option'),
                        (("1", "0", "--store"), '"--store" has no value'), (("1", "0", "--store", ""), '"" is no value of --store'),
                        (("1", "0", "--store", "a", "--store", "b"), '"--store" is given twice')):
        status, out, line = call(folder, "gen", *words)
        assert (status, out) == (1, "") and said in line, (words, status, line)
    assert os.listdir(folder) == []


@check("a foreign store, and one that a broker has, are told of gen as of the tools, and are left as they are")
def _(folder):
    os.makedirs(folder + "/store")
    open(folder + "/store/x", "w").close()
    before = everything(folder)
    assert call(folder, "gen", "10", "0")[:2] == (6, "foreign x\n")
    assert everything(folder) == before
    broker = subprocess.Popen([PROGRAM, "pipe", "--store", "other"], stdin=subprocess.PIPE, stdout=subprocess.PIPE, cwd=folder)
    broker.stdin.write(send(0, b"hi"))
    broker.stdin.flush()
    assert broker.stdout.read(4)
    status, out, said = call(folder, "gen", "10", "0", "--store", "other")
    assert (status, out) == (5, "") and "another process has the store" in said, (status, out, said)
    broker.communicate()
