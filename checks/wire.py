"""What the checks say to the real program and read of it, by code of its own: frames in both forms, and log files.

A test is a function under `@check(NAME)`, which gets an empty folder and prints its name once it holds.
"""
import contextlib
import json
import os
import subprocess
import sys
import tempfile
import zlib

PROGRAM = os.path.abspath(sys.argv[1])
SYSTEM_TOPICS = ("SCHEDULE_TOPIC_XXXX", "RMQ_SYS_TRANS_HALF_TOPIC", "RMQ_SYS_TRANS_OP_HALF_TOPIC", "TRANS_CHECK_MAX_TIME_TOPIC")

UNKNOWN, COMMIT, ROLLBACK = 0, 8, 12  # the verdicts on a half message

# SEND_MESSAGE's names, and the letters that stand for them in SEND_MESSAGE_V2
LETTERS = {"producerGroup": "a", "topic": "b", "defaultTopic": "c", "defaultTopicQueueNums": "d", "queueId": "e", "sysFlag": "f",
           "bornTimestamp": "g", "flag": "h", "properties": "i", "reconsumeTimes": "j", "unitMode": "k",
           "maxReconsumeTimes": "l", "batch": "m"}


def number(value, size):
    return value.to_bytes(size, "big", signed=value < 0)


def frame(header, body=b"", binary=False):
    """A frame of a header with `code`, `opaque`, `flag`, `version` and `extFields`."""
    if binary:
        pairs = b"".join(number(len(name.encode()), 2) + name.encode() + number(len(value.encode()), 4) + value.encode()
                         for name, value in header.get("extFields", {}).items())
        text = (number(header["code"], 2) + b"\0" + number(header.get("version", 0), 2) + number(header["opaque"], 4)
                + number(header.get("flag", 0), 4) + number(0, 4) + number(len(pairs), 4) + pairs)
    else:
        text = json.dumps(header, separators=(",", ":")).encode()
    return number(4 + len(text) + len(body), 4) + bytes([binary]) + number(len(text), 3) + text + body


def properties(pairs):
    return "".join(f"{name}\x01{value}\x02" for name, value in pairs)


def send(opaque, body, topic="T", flag=0, binary=False, short=False, without=(), **fields):
    """A send of code 10, or of code 310 where `short`."""
    ext = {"producerGroup": "P", "topic": topic, "queueId": "0", "sysFlag": "0", "bornTimestamp": "1000", "flag": "0",
           "defaultTopic": "TBW102", "defaultTopicQueueNums": "4"}
    ext.update(fields)
    ext = {LETTERS[name] if short else name: value for name, value in ext.items() if name not in without}
    return frame({"code": 310 if short else 10, "extFields": ext, "flag": flag, "opaque": opaque, "version": 395}, body, binary)


def pull(opaque, topic, at, most=32, flag=0, binary=False, **fields):
    ext = {"consumerGroup": "C", "topic": topic, "queueId": "0", "queueOffset": str(at), "maxMsgNums": str(most), "sysFlag": "0"}
    ext.update(fields)
    return frame({"code": 11, "extFields": ext, "flag": flag, "opaque": opaque, "version": 395}, b"", binary)


def of_group(code, opaque, group="G", topic="T", queue=0, binary=False, **fields):
    """A request about the offset that a consumer group has of a queue."""
    ext = {"consumerGroup": group, "topic": topic, "queueId": str(queue), **fields}
    return frame({"code": code, "extFields": ext, "flag": 0, "opaque": opaque, "version": 395}, b"", binary)


def stored(opaque, **names):
    return of_group(14, opaque, **names)


def commit(opaque, offset, **names):
    return of_group(15, opaque, commitOffset=str(offset), **names)


def half(opaque, body, more=(), **fields):
    """A send of a half message, with perhaps `more` properties."""
    return send(opaque, body, properties=properties([("TRAN_MSG", "true"), *more]), **fields)


def verdict(opaque, decision, queue_offset, place, group="P", key="", flag=0, binary=False):
    """A verdict on the half message at this queue offset and this place."""
    ext = {"producerGroup": group, "tranStateTableOffset": str(queue_offset), "commitLogOffset": str(place),
           "commitOrRollback": str(decision), "fromTransactionCheck": "false", "msgId": key, "transactionId": key}
    return frame({"code": 37, "extFields": ext, "flag": flag, "opaque": opaque, "version": 395}, b"", binary)


def binary_header(text):
    """The header that these bytes are, as a JSON header would say it."""
    at = 17
    remark = text[at:at + int.from_bytes(text[13:17], "big")].decode()
    at += len(remark.encode())
    end = at + 4 + int.from_bytes(text[at:at + 4], "big")
    at, ext = at + 4, {}
    while at < end:
        size = int.from_bytes(text[at:at + 2], "big")
        name, at = text[at + 2:at + 2 + size].decode(), at + 2 + size
        size = int.from_bytes(text[at:at + 4], "big")
        ext[name], at = text[at + 4:at + 4 + size].decode(), at + 4 + size
    assert end == len(text) and list(ext) == sorted(ext) and text[2] == 7
    header = {"code": int.from_bytes(text[:2], "big", signed=True), "opaque": int.from_bytes(text[5:9], "big"),
              "flag": int.from_bytes(text[9:13], "big"), "extFields": ext}
    return {**header, "remark": remark} if remark else header


def frames_of(data):
    """The whole frames of a stream, one behind another, and then what is left of it."""
    found, at = [], 0
    while len(data) >= at + 4 and len(data) >= at + 4 + int.from_bytes(data[at:at + 4], "big"):
        end = at + 4 + int.from_bytes(data[at:at + 4], "big")
        found.append(data[at:end])
        at = end
    return found, data[at:]


def header_of(frame):
    """The header of the reply that this one frame is, with the form that it came in."""
    form, head = frame[4], int.from_bytes(frame[5:8], "big")
    text = bytes(frame[8:8 + head])
    return {"binary": form == 1, **(binary_header(text) if form == 1 else json.loads(text))}


def replies(data):
    """The headers of the replies, each with the form that it came in."""
    found, rest = frames_of(memoryview(data))
    assert not rest
    return [header_of(one) for one in found]


def all_replies(data, whole=True):
    """The replies, each with its body; of a stream that isn't `whole` those that have come."""
    found, rest = frames_of(data)
    assert not rest or not whole
    return [reply_of(one) for one in found]


def reply_of(frame):
    """The reply that this one frame is, with its body."""
    head = int.from_bytes(frame[5:8], "big")
    return {**header_of(frame), "body": frame[8 + head:]}


def told(reply):
    """The code and the remark of a reply."""
    return reply["code"], reply.get("remark", "")


def where(reply):
    """Where the half message is that this reply tells of: its queue offset and its place."""
    assert told(reply) == (0, ""), reply
    return int(reply["extFields"]["queueOffset"]), int(reply["extFields"]["msgId"][16:], 16)


def pulled(body):
    """The records of a pull's body, one behind another, each at its own place of the log."""
    found, at = [], 0
    while at < len(body):
        r = record(body, at, int.from_bytes(body[at + 28:at + 36], "big") - at)
        assert r is not None, f"no record stands at byte {at} of a pull's body"
        found.append(r)
        at += r["size"]
    return found


def record(data, at, base=0):
    """The record at this offset of a segment's bytes, with its sums tested, or None where none stands."""
    size = int.from_bytes(data[at:at + 4], "big")
    r = data[at:at + size]
    if size < 105 or len(r) != size or r[4:8] != bytes.fromhex("DAA320A7"):
        return None
    body_end = 88 + int.from_bytes(r[84:88], "big")
    body = r[88:body_end]
    topic_end = body_end + 1 + r[body_end]
    text = r[topic_end + 2:]
    sealed = b"SEAL\x01" + b"%08X" % zlib.crc32(r[:-9] + b"00000000\x02") + b"\x02"
    if text[-14:] != sealed or int.from_bytes(r[8:12], "big") != zlib.crc32(body) & 0x7FFFFFFF:
        return None
    assert int.from_bytes(r[28:36], "big") == base + at and int.from_bytes(r[topic_end:topic_end + 2], "big") == len(text)
    return {"place": base + at, "size": size, "body": body, "topic": r[body_end + 1:topic_end].decode(), "props": text[:-14].decode(),
            "queue": int.from_bytes(r[12:16], "big"), "queue_offset": int.from_bytes(r[20:28], "big"),
            "sysflag": int.from_bytes(r[36:40], "big"), "born": int.from_bytes(r[40:48], "big"),
            "store": int.from_bytes(r[56:64], "big"), "reconsume": int.from_bytes(r[72:76], "big", signed=True),
            "prepared": int.from_bytes(r[76:84], "big")}


def log_files(folder):
    path = os.path.join(folder, "store", "commitlog")
    names = sorted(os.listdir(path)) if os.path.isdir(path) else []
    return [(int(name), open(os.path.join(path, name), "rb").read()) for name in names]


def records(folder, whole=True):
    """The records of a store's log, in order; of a `whole` log nothing stands behind them but the zeros that `serve` writes ahead."""
    found, files = [], log_files(folder)
    for base, data in files:
        at = 0
        while at < len(data):
            r = record(data, at, base)
            if r is None:
                blank = data[at + 4:at + 8] == bytes.fromhex("CBD43194") and at + int.from_bytes(data[at:at + 4], "big") == len(data)
                zeros = base == files[-1][0] and not data[at:].strip(b"\0")
                assert blank or zeros or not whole, (base, at)
                break
            found.append(r)
            at += r["size"]
    return found


def crash(folder):
    """Takes the mark of an end in order away, which a killed broker doesn't leave: what is done to the log then, a crash may have done."""
    with contextlib.suppress(FileNotFoundError):
        os.remove(folder + "/store/config/ended")


def run(data, folder, words=("pipe",)):
    done = subprocess.run([PROGRAM, *words], input=data, cwd=folder, stdout=subprocess.PIPE, timeout=60)
    return done.returncode, done.stdout


def check(name):
    def wrap(test):
        with tempfile.TemporaryDirectory() as folder:
            test(folder)
        print("ok:", name)
    return wrap
