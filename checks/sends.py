#!/usr/bin/env python3
"""What the real program answers to sends of every kind, in both forms of headers and by both codes: checks/sends.py PROGRAM."""
from wire import LETTERS, SYSTEM_TOPICS, check, frame, properties, pull, records, replies, run, send

KINDS = [(binary, short) for binary in (False, True) for short in (False, True)]


def answers(data, folder, words=("pipe",)):
    status, out = run(data, folder, words)
    assert status == 0, status
    return replies(out)


def as_named(remark, short):
    """The remark with the field's name as the request's code has it."""
    return "field " + LETTERS[remark[6:]] if short and remark.startswith("field ") else remark


@check("a send is served alike in both forms and by both codes")
def _(folder):
    told = answers(b"".join(send(k, b"hi", binary=binary, short=short) for k, (binary, short) in enumerate(KINDS)), folder)
    assert [(r["binary"], r["code"], r["opaque"], r["flag"]) for r in told] == [(binary, 0, k, 1) for k, (binary, _) in enumerate(KINDS)]
    stored = records(folder)
    assert [r["body"] for r in stored] == [b"hi"] * 4 and [r["queue_offset"] for r in stored] == [0, 1, 2, 3]
    for reply, r in zip(told, stored):
        assert reply["extFields"] == {"msgId": "7F00000100002A9F%016X" % r["place"], "queueId": "0",
                                      "queueOffset": str(r["queue_offset"])} and "remark" not in reply


@check("each refusal has its code and its remark, in the order of the rules, and takes no place")
def _(folder):
    half = properties([("TRAN_MSG", "TrUe")])
    rows = [
        ({"topic": "a b"}, 13, "topic"), ({"topic": ""}, 13, "topic"), ({"topic": "x" * 128}, 13, "topic"),
        ({"topic": "a b", "sysFlag": "16"}, 13, "topic"), ({"sysFlag": "16"}, 13, "sysFlag"), ({"sysFlag": "32"}, 13, "sysFlag"),
        ({"sysFlag": "-1", "properties": "x" * 32000}, 13, "sysFlag"),
        ({"properties": "x" * 32000}, 13, "properties"), ({"topic": SYSTEM_TOPICS[0], "properties": "x" * 32000}, 13, "properties"),
        *(({"topic": topic}, 16, "system topic") for topic in SYSTEM_TOPICS),
        ({"without": ("queueId",)}, 1, "field queueId"), ({"queueId": "x"}, 1, "field queueId"), ({"queueId": "2147483648"}, 1, "field queueId"),
        ({"bornTimestamp": str(2 ** 62)}, 1, "field bornTimestamp"), ({"producerGroup": ""}, 1, "field producerGroup"),
        ({"producerGroup": "g" * 121}, 1, "field producerGroup"), ({"batch": "true"}, 1, "field batch"),
        ({"reconsumeTimes": "x", "without": ("flag",)}, 1, "field flag"), ({"topic": "a b", "reconsumeTimes": "x"}, 1, "field reconsumeTimes"),
    ]
    rows += [
        ({"defaultTopic": ""}, 17, "no topic"), ({"without": ("defaultTopic",)}, 17, "no topic"),
        ({"defaultTopic": "", "topic": SYSTEM_TOPICS[0]}, 16, "system topic"), ({"defaultTopic": "", "queueId": "9"}, 17, "no topic"),
        ({"queueId": "4"}, 1, "queue"), ({"queueId": "1", "defaultTopicQueueNums": "1"}, 1, "queue"),
        ({"queueId": "8", "defaultTopicQueueNums": "9"}, 1, "queue"), ({"queueId": "1", "defaultTopicQueueNums": "-1"}, 1, "queue"),
    ]
    rows += [({"properties": half, "topic": "a b"}, 13, "topic"), ({"sysFlag": "4", "queueId": "4"}, 1, "queue"),
             ({"properties": half, "topic": SYSTEM_TOPICS[1]}, 16, "system topic")]
    for binary, short in KINDS:
        table = [(fields, status, as_named(remark, short)) for fields, status, remark in rows]
        data = b"".join(send(k, b"hi", binary=binary, short=short, **fields) for k, (fields, _, _) in enumerate(table))
        for (fields, status, remark), reply in zip(table, answers(data, folder), strict=True):
            assert (reply["code"], reply.get("remark"), reply["extFields"]) == (status, remark, {}), (fields, reply)
    assert records(folder) == []


@check("bodies and property texts are taken up to their bounds and not past them")
def _(folder):
    data = (send(0, b"x" * 4194304) + send(1, b"x" * 4194305) + send(2, b"", properties="n\x01" + "x" * 31997)
            + send(3, b"", properties="n\x01" + "x" * 31998))
    told = answers(data, folder)
    assert [(r["code"], r.get("remark")) for r in told] == [(0, None), (13, "body"), (0, None), (13, "properties")]
    assert [(len(r["body"]), len(r["props"])) for r in records(folder)] == [(4194304, 0), (0, 32000)]


@check("a send with a million properties is refused, and one with thousands is stored and read again, before a run times out")
def _(folder):
    many, thousands = (properties((f"{k:x}", "") for k in range(count)) for count in (1000000, 5000))
    told = answers(send(0, b"", binary=True, properties=many) + send(1, b"", binary=True, properties=thousands), folder)
    assert [(r["code"], r.get("remark")) for r in told] == [(13, "properties"), (0, None)]
    assert answers(send(2, b""), folder)[0]["extFields"]["queueOffset"] == "1"
    assert [r["props"] for r in records(folder)] == [thousands, ""]


@check("in small segments a record may have what leaves room, and a body past that is refused")
def _(folder):
    told = answers(send(0, b"x" * 3072) + send(1, b"x" * 804) + send(2, b"hi") + send(3, b"x" * 3073), folder, ("pipe", "--segment", "4096"))
    assert [(r["code"], r.get("remark")) for r in told] == [(0, None)] * 3 + [(13, "record")]
    assert [r["place"] for r in records(folder)] == [0, 3178, 4096]


@check("properties are kept in order, the last value of a name counts, and reserved and broken ones are dropped")
def _(folder):
    text = "A\x011\x02bad\x02A\x012\x02" + properties([("SEAL", "x"), ("REAL_TOPIC", "U"), ("REAL_QID", "1"), ("DELAY_FROM", "1-0"),
                                                       ("TRAN_PREPARED_QUEUE_OFFSET", "5"), ("TRANSACTION_CHECK_TIMES", "1"), ("", "x")])
    told = answers(send(0, b"", properties=text + "KEYS\x01k") + send(1, b"", queueId="-3", sysFlag="11", properties="\x02\x02DELAY\x010\x02DELAY2\x01x"), folder)
    assert [r["code"] for r in told] == [0, 0] and told[1]["extFields"]["queueId"] == "0"
    stored = records(folder)
    assert [r["props"] for r in stored] == [properties([("A", "2"), ("KEYS", "k")]), properties([("DELAY", "0"), ("DELAY2", "x")])]
    assert [r["sysflag"] for r in stored] == [0, 3]


@check("each queue of a topic counts its own messages, and a topic that is made has the queues that it was made with")
def _(folder):
    made = frame({"code": 17, "opaque": 0, "extFields": {"topic": "M", "readQueueNums": "3", "writeQueueNums": "3", "perm": "6",
                                                         "topicFilterType": "SINGLE_TAG", "topicSysFlag": "0", "order": "false",
                                                         "defaultTopic": "TBW102"}})
    rows = [("T", 3), ("T", 0), ("T", 3), ("M", 2), ("M", 0), ("T", 1), ("M", 2)]
    told = answers(made + b"".join(send(1 + k, b"%d" % k, topic=topic, queueId=str(queue)) for k, (topic, queue) in enumerate(rows))
                   + send(9, b"", topic="M", queueId="3"), folder)
    assert [r["code"] for r in told] == [0] * 8 + [1] and told[8]["remark"] == "queue", told
    assert [r["extFields"]["queueOffset"] for r in told[1:8]] == ["0", "0", "1", "0", "0", "0", "1"]
    assert [r["body"] for r in records(folder)] == [b"%d" % k for k in range(7)]


@check("a message that doesn't wait is answered, stands in its place, and is pulled")
def _(folder):
    told = answers(send(0, b"a", properties=properties([("WAIT", "FALSE")])) + send(1, b"b") + pull(2, "T", 0), folder)
    assert [r["code"] for r in told] == [0, 0, 0] and told[2]["extFields"]["nextBeginOffset"] == "2"
    assert [r["body"] for r in records(folder)] == [b"a", b"b"]


@check("requests of codes that nobody knows are answered with 3")
def _(folder):
    codes = [320, 999, -5, 0, 13, 32767]
    told = answers(b"".join(frame({"code": code, "opaque": k, "extFields": {}}, binary=k % 2 == 1) for k, code in enumerate(codes)), folder)
    assert [(r["code"], r["remark"]) for r in told] == [(3, f"code {code}") for code in codes]
