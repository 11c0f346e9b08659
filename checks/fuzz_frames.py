#!/usr/bin/env python3
"""Feeds mutated frames to the real program and looks for anything but the stated statuses: checks/fuzz_frames.py PROGRAM [SECONDS].

Mutated JSON headers go beside them, and each has to be answered, or refused, as python's own reader of JSON says.

Not a part of the gate. The seed is printed, so that a finding can be made again: checks/fuzz_frames.py PROGRAM SECONDS SEED.
"""
import json
import math
import os
import random
import re
import subprocess
import sys
import tempfile
import time

PROGRAM = os.path.abspath(sys.argv[1])
SECONDS = float(sys.argv[2]) if len(sys.argv) > 2 else 60
SEED = int(sys.argv[3]) if len(sys.argv) > 3 else int(time.time())
HERE = os.path.dirname(os.path.abspath(__file__))
JSON = open(os.path.join(HERE, "..", "crates", "mq_broker", "stdin"), "rb").read()
BINARY = bytes.fromhex("00000033 0100002F 001E 00 018B 00000005 00000000 00000000 0000001A"
                       "0005 746F706963 00000001 54 0007 71756575654964 00000001 30")
# What a run over standard streams may end with: well, at a bad frame, or for want of memory.
STATUSES = {0, 2, 7}


def mutated(dice):
    data = bytearray(b"".join(dice.choice([JSON, BINARY]) for _ in range(dice.randint(1, 3))))
    for _ in range(dice.randint(1, 6)):
        at = dice.randrange(len(data)) if data else 0
        kind = dice.randrange(4)
        if kind == 0 and data:
            data[at] = dice.randrange(256)
        elif kind == 1:
            data[at:at] = dice.randbytes(dice.randint(1, 8))
        elif kind == 2:
            del data[at:at + dice.randint(1, 40)]
        else:
            data[at:at] = data[:dice.randint(0, 64)]
    return bytes(data)


# ---- JSON headers: python's own reader says what each is

FIELDS = {"producerGroup": "P", "topic": "T", "queueId": "0", "sysFlag": "0", "bornTimestamp": "1000", "flag": "0",
          "defaultTopicQueueNums": "4"}
WHOLE = re.compile(r"-?[0-9]+")
# What mutations put in: members that come twice, escapes, lone surrogates, numbers in every spelling, and more depth.
PIECES = ['"code":10,', '"code":null,', '"opaque":-3,', '"opaque":2147483648,', '"opaque":-2147483648,', '"opaque":007,', '"flag":2,',
          '"flag":1.0,', '"flag":-0,', '"version":1e2,', '"version":395,', '"remark":null,', '"remark":"\\n",', '"remark":7,',
          '"remark":"\\ud800",', '"remark":"\\ud83d\\ude00",', '"extFields":null,', '"extFields":{},', '"extFields":[],',
          '"queueId":"1",', '"queueId":"2",', '"queueId":null,', '"queueId":3,', '"queueId":-3,', '"queueId":-0,', '"queueId":2.0,',
          '"queueId":1e0,', '"queueId":true,', '"queueId":[1],', '"queueId":{},', '"batch":false,',
          '"bornTimestamp":9223372036854775807,', '"bornTimestamp":9223372036854775808,', '"y":-9223372036854775808,',
          '"y":-9223372036854775809,', '"queue\\u0049d":"3",', '"c\\u006fde":10,',
          '"x":1e400,', '"x":-1e400,', '"x":1e-400,', '"x":true,', '"x":[{"code":1}],', '"x":{"opaque":{}},', '"x":NaN,', '"x":tru,',
          '"\\u00e9":"\\/\\b\\f",', '"x":"\t",', '"x":"\x7f",', '"x":' + "[" * 126 + "]" * 126 + ",",
          '"x":' + "[" * 127 + "]" * 127 + ",", '"x":' + "9" * 309 + ",", '"x":' + "9" * 308 + ",",
          '"queueId":"\\u0031",', '"queueId":"\\u003",', '"queueId":"\\u0032\\u00",', '"x":"\\u0001\\u0002\\t\\"\\\\",',
          '"x":"\\u00e9",', '"x":"\\u007f\\u0080",', '"x":"\\a",', '"x":"more than sixteen \\n bytes of text",',
          '"x":"0123456789abcde\\u0001",', '"x":"0123456789abcd\x1f",', '"x":"0123456789abcdé",', '"x" : "y" , ',
          " ", "\n", ",", "{", "}", '"', "\\", "0", "-"]


class Refused(Exception):
    """The text is no header."""


class Number:
    """A number as it is spelled."""

    def __init__(self, text):
        self.text = text
        if math.isinf(float(text)):
            raise Refused


def refuse(_):
    raise Refused


def depth_of(value):
    if isinstance(value, list):
        return 1 + max(map(depth_of, value), default=0)
    return value.depth if isinstance(value, Object) else 0


def whole(value):
    """A whole number of 32 bits: no point, no exponent, and not -0."""
    if not isinstance(value, Number) or not WHOLE.fullmatch(value.text) or value.text == "-0":
        raise Refused
    if not -2 ** 31 <= int(value.text) < 2 ** 31:
        raise Refused
    return int(value.text)


def field_of(value):
    """The text that a value of `extFields` stands for, or None for null."""
    if value is None or isinstance(value, str):
        return value
    if isinstance(value, bool):
        return "true" if value else "false"
    if not isinstance(value, Number) or not WHOLE.fullmatch(value.text) or value.text == "-0":
        raise Refused
    if not -2 ** 63 <= int(value.text) < 2 ** 63:
        raise Refused
    return value.text


def has_surrogate(value):
    if isinstance(value, str):
        return any(0xd800 <= ord(c) < 0xe000 for c in value)
    return isinstance(value, list) and any(map(has_surrogate, value))


class Object(dict):
    """An object, of which each name and value was looked at, also those that a later member of the name replaced."""

    def __init__(self, pairs):
        super().__init__(pairs)
        if any(has_surrogate(name) or has_surrogate(value) for name, value in pairs):
            raise Refused
        self.depth = 1 + max((depth_of(value) for _, value in pairs), default=0)
        if self.depth > 127:
            raise Refused


def header_of(text):
    """The opaque, the flag and the fields of the header that the bytes are, or Refused."""
    try:
        value = json.loads(text.decode(), object_pairs_hook=Object, parse_int=Number, parse_float=Number, parse_constant=refuse)
    except (ValueError, RecursionError):
        raise Refused from None
    if not isinstance(value, Object):
        raise Refused
    whole(value.get("code"))
    opaque = whole(value.get("opaque"))
    flag = whole(value["flag"]) if "flag" in value else 0
    if "version" in value:
        whole(value["version"])
    if not isinstance(value.get("remark", ""), (str, type(None))):
        raise Refused
    fields = value.get("extFields")
    if not isinstance(fields, (dict, type(None))):
        raise Refused
    texts = {name: field_of(value) for name, value in (fields or {}).items()}
    return opaque, flag, {name: text for name, text in texts.items() if text is not None}


def mutated_header(dice):
    queue = dice.randrange(4)
    # As Java's clients write it, mostly, and as those of C++ do.
    fields = dict(FIELDS, queueId=queue if dice.random() < 0.3 else str(queue))
    text = json.dumps({"code": 10, "extFields": fields, "flag": dice.choice([0, 0, 0, 1, 2]), "language": "JAVA",
                       "opaque": dice.randrange(-2 ** 31, 2 ** 31), "version": 395}, separators=(",", ":"))
    for _ in range(dice.choice([0, 1, 1, 2, 3])):
        # At the beginning of a member, mostly.
        places = [at + 1 for at, c in enumerate(text) if c in "{,"]
        at = dice.choice(places) if places and dice.random() < 0.8 else dice.randrange(len(text) + 1)
        text = text[:at] + dice.choice(PIECES) + text[at:]
    if dice.random() < 0.1:
        at = dice.randrange(len(text))
        text = text[:at] + text[at + dice.randint(1, 3):]
    data = text.encode()
    if dice.random() < 0.05:
        at = dice.randrange(len(data))
        data = data[:at] + bytes([dice.randrange(128, 256)]) + data[at:]
    return data


def framed(header):
    return (4 + len(header)).to_bytes(4, "big") + len(header).to_bytes(4, "big") + header


def replies(data):
    """The headers of the frames that the bytes are."""
    found = []
    while data:
        size, header = int.from_bytes(data[:4], "big"), int.from_bytes(data[5:8], "big")
        found.append(json.loads(data[8:8 + header]))
        data = data[4 + size:]
    return found


def check_reply(opaque, fields, reply, told):
    if reply["opaque"] != opaque:
        sys.exit(f"{told}: opaque {reply['opaque']} for {opaque}")
    if reply["code"] == 0 and reply["extFields"].get("queueId") not in (None, fields.get("queueId")):
        sys.exit(f"{told}: queue {reply['extFields']['queueId']} for {fields.get('queueId')}")


def told_headers(dice):
    """Some headers with what each says, the last one perhaps none."""
    found = []
    while len(found) < 60:
        header = mutated_header(dice)
        try:
            found.append((header, *header_of(header)))
        except Refused:
            if dice.random() < 0.02:
                return [*found, (header, None, None, None)]
    return found


def check_headers(dice):
    """Each header of a stream is answered as python reads it, and the one that is none ends it."""
    told = told_headers(dice)
    asked = [(header, opaque, fields) for header, opaque, flag, fields in told if opaque is not None and flag % 4 == 0]
    status = 2 if told[-1][1] is None else 0
    with tempfile.TemporaryDirectory() as folder:
        done = subprocess.run([PROGRAM, "pipe"], input=b"".join(framed(header) for header, *_ in told), cwd=folder,
                              stdout=subprocess.PIPE, stderr=subprocess.DEVNULL, timeout=60)
    found = replies(done.stdout)
    if done.returncode != status or len(found) != len(asked):
        sys.exit(f"status {done.returncode} for {status}, {len(found)} replies for {len(asked)}, to {[header for header, *_ in told]}")
    for (header, opaque, fields), reply in zip(asked, found):
        check_reply(opaque, fields, reply, header)
    return len(told)


def main():
    dice = random.Random(SEED)
    print("seed", SEED)
    end, runs, answered = time.time() + SECONDS, 0, 0
    while time.time() < end:
        data = mutated(dice)
        with tempfile.TemporaryDirectory() as folder:
            done = subprocess.run([PROGRAM, "pipe"], input=data, cwd=folder, stdout=subprocess.PIPE, stderr=subprocess.DEVNULL,
                                  timeout=60)
        runs += 1
        if done.returncode not in STATUSES:
            sys.exit(f"run {runs}: status {done.returncode} for {data.hex()}")
        answered += check_headers(dice)
    print(runs, "runs, each with a stated status;", answered, "JSON headers, each read as python reads it")


main()
