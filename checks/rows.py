#!/usr/bin/env python3
"""Worked rows of the real program, with a clock that stands still until a check sets it: checks/rows.py PROGRAM.

A row is a reading of the clock, a request, and in words what `pipe` says to it: the places of the half messages that its client is asked
about, then the code, the remark and the fields of the reply, and `[place size]` of each record that is found. The answers were written by
hand. A number between rows is a crash: the process is killed, and the log is cut to so many bytes and opened again. Each check prints its
name; the first that fails ends it.
"""
import json
import os
import sys

from clocked import FIRST, Clock, Pipe, answers, greatest, is_clock_taken
from wire import (COMMIT, ROLLBACK, SYSTEM_TOPICS, UNKNOWN, check, commit, crash, frame, half, of_group, properties, pull, pulled, send, stored,
                  verdict)

HALF_TOPIC, GIVEN_UP_TOPIC = SYSTEM_TOPICS[1], SYSTEM_TOPICS[3]


def request(code, said=None, **fields):
    """A request with these fields, and as its body perhaps something in JSON."""
    body = b"" if said is None else json.dumps(said).encode()
    return frame({"code": code, "extFields": fields, "flag": 0, "opaque": 0, "version": 395}, body)


def beat(words="*", group="G"):
    """A heartbeat of a client that produces and consumes for a group, and wants these tags of topic T."""
    wanted = [{"topic": "T", "subString": words, "tagsSet": [], "codeSet": [], "subVersion": 1, "expressionType": "TAG"}]
    return request(34, {"clientID": "c1", "producerDataSet": [{"groupName": group}],
                        "consumerDataSet": [{"groupName": group, "subscriptionDataSet": wanted}]})


def words_of(reply, asked):
    """The reply in words, and what the client was asked before it came."""
    words = [f"asked about {one['extFields']['commitLogOffset']}," for one in asked]
    words += [str(reply["code"]), *([reply["remark"]] if "remark" in reply else [])]
    words += [f"{name}={value}" for name, value in reply["extFields"].items()]
    if reply["body"][:1] == b"{":
        return " ".join([*words, f"locked {len(json.loads(reply['body'])['lockOKMQSet'])}"])
    return " ".join(words + [f"[{r['place']} {r['size']}]" for r in pulled(reply["body"])])


def parts_of(table):
    """The rows before the first crash, behind nothing, and those behind each crash, behind its number."""
    parts = [(None, [])]
    for row in table:
        if isinstance(row, int):
            parts.append((row, []))
        else:
            parts[-1][1].append(row)
    return parts


def play(folder, *table, log=""):
    """Goes through a table, over a log that these hexadecimal digits spell. Answers how long the log is then."""
    clock, path = Clock(folder), os.path.join(folder, FIRST)
    if log:
        answers(folder, clock, send(0, b""))
        with open(path, "wb") as file:
            file.write(bytes.fromhex(log))
        crash(folder)
    for left, rows in parts_of(table):
        if left is not None:
            assert os.path.getsize(path) >= left, (left, os.path.getsize(path))
            os.truncate(path, left)
            crash(folder)
        with Pipe(folder, clock) as pipe:
            for number, (now, asked, wanted) in enumerate(rows):
                clock.set(now)
                pipe.checks = []
                found = words_of(pipe.ask(asked), pipe.checks)
                assert found == wanted, (left, number, now, found, wanted)
    return os.path.getsize(path) if os.path.exists(path) else 0


def kept(place, offset):
    """What a send to queue 0 is answered whose record stands there."""
    return f"0 msgId=7F00000100002A9F{place:016X} queueId=0 queueOffset={offset}"


def page(code, count, following, *ranges):
    """What a pull of a queue with so many messages is answered, which goes on at the offset that follows."""
    words = f"{code} maxOffset={count} minOffset=0 nextBeginOffset={following} suggestWhichBrokerId=0"
    return " ".join([words, *(f"[{place} {size}]" for place, size in ranges)])


if not is_clock_taken():
    print("skipped: there is no cc, or the program takes no clock of a library")
    sys.exit(0)


PULL = pull(0, "T", 0, sysFlag="4", subscription="*")
HEARD = pull(0, "T", 0, consumerGroup="G")  # by what the group's heartbeat said
NOTHING = page(19, 0, 0)


@check("a group pulls by its heartbeat's tags until it unregisters, and stores how far it came")
def _(folder):
    play(folder, (1000, beat(), "0"), (1000, send(0, b"hi", properties=properties([("UNIQ_KEY", "K"), ("WAIT", "true")])), kept(0, 0)),
         (1000, HEARD, page(0, 1, 1, (0, 129))), (1000, commit(0, 1), "0"), (1000, stored(0), "0 offset=1"),
         (1000, send(0, b"hi", properties=properties([("TAGS", "TagB")])), kept(129, 1)),
         (1000, pull(0, "T", 1, consumerGroup="G"), page(0, 2, 2, (129, 118))), (1000, stored(0, group="H"), "22"),
         (1000, commit(0, 9), "0"), (1000, stored(0), "0 offset=2"),
         (1000, pull(0, "T", 0, consumerGroup="G", sysFlag="5", commitOffset="1", subscription="*"), page(0, 2, 2, (0, 129), (129, 118))),
         (1000, stored(0), "0 offset=1"), (1000, beat("TagB"), "0"), (1000, HEARD, page(0, 2, 2, (129, 118))), (1000, beat("TagC"), "0"),
         (1000, HEARD, page(20, 2, 2)), (1000, request(35, clientID="c1", consumerGroup="G"), "0"),
         (1000, HEARD, page(0, 2, 2, (0, 129), (129, 118))))


def lock(client, code=41):
    return request(code, {"consumerGroup": "G", "clientId": client, "mqSet": [{"topic": "T", "brokerName": "b", "queueId": 0}]})


@check("a lock hinders other clients until 60,000 ms are over since it was last granted, and its own client never")
def _(folder):
    play(folder, (0, lock("A"), "0 locked 1"), (60000, lock("B"), "0 locked 0"), (60000, lock("B", 42), "0"),
         (60000, lock("B"), "0 locked 0"), (60001, lock("B"), "0 locked 1"), (60001, lock("B", 42), "0"), (60001, lock("A"), "0 locked 1"),
         (90000, lock("A"), "0 locked 1"), (150000, lock("B"), "0 locked 0"), (150001, lock("B"), "0 locked 1"),
         (150001, lock("A"), "0 locked 0"))


@check("a lock goes by the clock's readings, whatever clock stored the last message, and ends where the clock is set back by over 60,000 ms")
def _(folder):
    play(folder, (4000000000000, send(0, b"hi"), kept(0, 0)), (60002, lock("A"), "0 locked 1"), (2, lock("B"), "0 locked 0"),
         (1, lock("B"), "0 locked 1"), (60001, lock("A"), "0 locked 0"), (60002, lock("A"), "0 locked 1"))


@check("the first message from a time on is found by its offset, and the bounds of a queue are told")
def _(folder):
    def search(time):
        return of_group(29, 0, timestamp=str(time))
    play(folder, (1000, send(0, b"hi"), kept(0, 0)), (3000, send(0, b"hi"), kept(108, 1)),
         *((3000, search(time), f"0 offset={offset}") for time, offset in ((-5, 0), (0, 0), (1000, 0), (1001, 1), (3000, 1), (3001, 2))),
         (3000, of_group(31, 0), "0 offset=0"), (3000, greatest(0, "T"), "0 offset=2"), (3000, greatest(0, "T", 1), "0 offset=0"),
         (3000, greatest(0, "U"), "17 no topic"), (3000, of_group(29, 0, queue=4, timestamp="0"), "1 queue"))


HALF = half(0, b"hi", [("PGROUP", "P")])  # a record of 178 bytes, whose copy has 117


def on(decision, queue_offset=0, place=0, **more):
    return verdict(0, decision, queue_offset, place, **more)


@check("a verdict names a half message by its offset and place together, its group, and its id where it has one")
def _(folder):
    keyed = send(0, b"hi", properties=properties([("TRAN_MSG", "True"), ("UNIQ_KEY", "K")]))  # 189 bytes: its sender's group is added
    refused = (on(COMMIT, 2, 367), on(COMMIT, 0, 189), on(ROLLBACK, 1, 0), on(COMMIT, group="Q"), on(ROLLBACK, key="L"),
               on(UNKNOWN, key="L"))
    play(folder, (1000, keyed, kept(0, 0)), (1000, HALF, kept(189, 1)), *((1000, one, "1 half") for one in refused),
         (1000, on(UNKNOWN, 1, 189, key="L"), "0"), (1000, on(UNKNOWN), "0"), (1000, on(COMMIT, key="K"), "0"),
         (1000, on(ROLLBACK, 1, 189, key="L"), "0"), (1000, on(ROLLBACK), "1 settled committed"),
         (1000, on(COMMIT, 1, 189), "1 settled rolledback"), (1000, on(UNKNOWN), "0"), (1000, on(UNKNOWN, 1, 189), "0"),
         (1000, PULL, page(0, 1, 1, (367, 128))))


TWO_COPIES = """
000000B2DAA320A758932AAC0000000000000000000000000000000000000000000000000000000000000000000003E87F000001000000000000
0000000003E87F00000100002A9F00000000000000000000000000000002686918524D515F5359535F5452414E535F48414C465F544F50494300
3D5452414E5F4D53470174727565025047524F55500150025245414C5F544F5049430154025245414C5F5149440130025345414C013043384632
4142440200000075DAA320A758932AAC0000000000000000000000000000000000000000000000B20000000800000000000003E87F0000010000
000000000000000003E87F00000100002A9F000000000000000000000000000000026869015400175047524F55500150025345414C0141303739
323643370200000075DAA320A758932AAC0000000000000000000000000000000100000000000001270000000800000000000003E87F00000100
00000000000000000003E87F00000100002A9F000000000000000000000000000000026869015400175047524F55500150025345414C01453435
384533393702"""


@check("of a log with two copies of one half message both are pulled, and nothing is made")
def _(folder):
    assert play(folder, (1000, PULL, page(0, 2, 2, (178, 117), (295, 117))), (1000, on(COMMIT), "0"),
                (1000, on(ROLLBACK), "1 settled committed"), log=TWO_COPIES) == 412


RENEWED_TWICE = """
000000B2DAA320A758932AAC0000000000000000000000000000000000000000000000000000000000000000000003E87F000001000000000000
0000000003E87F00000100002A9F00000000000000000000000000000002686918524D515F5359535F5452414E535F48414C465F544F50494300
3D5452414E5F4D53470174727565025047524F55500150025245414C5F544F5049430154025245414C5F5149440130025345414C013043384632
41424402000000E9DAA320A758932AAC0000000000000000000000000000000100000000000000B20000000000000000000003E87F0000010000
00000000000000001B587F00000100002A9F00000000000000000000000000000002686918524D515F5359535F5452414E535F48414C465F544F
50494300745452414E5F4D53470174727565025047524F55500150025245414C5F544F5049430154025245414C5F5149440130025452414E5F50
524550415245445F51554555455F4F46465345540130025452414E53414354494F4E5F434845434B5F54494D45530131025345414C0130323530
4330313202000000E9DAA320A758932AAC00000000000000000000000000000002000000000000019B0000000000000000000003E87F00000100
0000000000000000001B587F00000100002A9F00000000000000000000000000000002686918524D515F5359535F5452414E535F48414C465F54
4F50494300745452414E5F4D53470174727565025047524F55500150025245414C5F544F5049430154025245414C5F5149440130025452414E5F
50524550415245445F51554555455F4F46465345540131025452414E53414354494F4E5F434845434B5F54494D45530131025345414C01383243
414545463102"""


@check("the renewal of a renewal names no half message and takes no verdict, and the renewal itself does")
def _(folder):
    play(folder, (7000, on(COMMIT, 2, 411), "1 half"), (7000, on(COMMIT, 1, 178), "0"), (7000, on(COMMIT, 2, 411), "1 half"),
         (7000, on(ROLLBACK), "1 settled committed"), (7000, PULL, page(0, 1, 1, (644, 117))), log=RENEWED_TWICE)


@check("a rollback of a renewal rolls its origin back, also once the log is opened again")
def _(folder):
    after = ((967000, on(COMMIT), "1 settled rolledback"), (967000, on(COMMIT, 1, 178), "1 settled rolledback"),
             (967000, on(ROLLBACK), "0"), (967000, PULL, NOTHING), (967000, greatest(0, HALF_TOPIC), "0 offset=2"))
    play(folder, (1000, HALF, kept(0, 0)), (7000, on(ROLLBACK, 1, 178), "0"), (7000, on(ROLLBACK), "0"), *after, 551, *after)


@check("a half message whose sender doesn't wait is answered so, and so is its Commit; said again, it waits")
def _(folder):
    loose = half(0, b"hi", [("WAIT", "false")])
    play(folder, (1000, send(0, b"hi", sysFlag="4"), kept(0, 0)), (1000, loose, kept(164, 1)), (1000, on(COMMIT), "0"),
         (1000, on(COMMIT, 1, 164), "0"), (1000, on(COMMIT, 1, 164), "0"), (1000, PULL, page(0, 2, 2, (353, 117), (610, 128))))


@check("a half message is checked each 60,000 ms and given up then, also where a crash lost the record behind the one that says so")
def _(folder):
    places = (411, 644, 877, 1110, 1343, 1576, 1809, 2042, 2275, 2509, 2743, 2977, 3211, 3445)
    asked = tuple((67000 + 60000 * k, greatest(0, HALF_TOPIC), f"asked about {place}, 0 offset={k + 3}") for k, place in enumerate(places))
    after = ((967000, on(COMMIT), "1 settled discarded"), (967000, on(ROLLBACK), "1 settled discarded"),
             (967000, on(COMMIT, 1, 178), "1 settled discarded"), (967000, on(UNKNOWN), "0"), (967000, PULL, NOTHING),
             (967000, greatest(0, HALF_TOPIC), "0 offset=16"), (967000, greatest(0, GIVEN_UP_TOPIC), "0 offset=1"))
    assert play(folder, (1000, HALF, kept(0, 0)), (6999, greatest(0, HALF_TOPIC), "0 offset=1"),
                (7000, greatest(0, HALF_TOPIC), "0 offset=2"), (7000, beat(group="P"), "0"),
                (66999, greatest(0, HALF_TOPIC), "0 offset=2"), *asked, (906999, greatest(0, GIVEN_UP_TOPIC), "0 offset=0"),
                (907000, greatest(0, GIVEN_UP_TOPIC), "0 offset=1"), *after,
                3915, *after, (967000, beat(group="P"), "0"), (10 ** 9, greatest(0, HALF_TOPIC), "0 offset=16")) == 3915
