#!/usr/bin/env python3
"""Two thousand requests that look like chance to one store of the real program, and are the same in each run: checks/chance.py PROGRAM.

Sends, half messages and verdicts on them, delayed messages, pulls, queries, offsets, locks, heartbeats and restarts, under a clock that
stands still until a check sets it. What the broker answered is noted, and what consumers find is compared with that alone: no rule of the
log is written here again. Each check prints its name; the first that fails ends it.
"""
import collections
import json
import random
import sys
import tempfile

from clocked import Clock, Pipe, is_clock_taken, pulled_all
from wire import (COMMIT, ROLLBACK, SYSTEM_TOPICS, UNKNOWN, check, commit, frame, half, of_group, properties, pull, pulled, send, stored,
                  told, verdict, where)

SEED, REQUESTS = 20261130, 2000
TOPICS, OTHERS = ("T", "U", "V"), (SYSTEM_TOPICS[1], "no topic!")
GROUPS, CLIENTS = ("G", "H"), ("c1", "c2")
SMALL = ("--segment", "4096")
LATE = 2 * 3600 * 1000  # the longest delay

# What may be answered but 0, to each code of a request
REFUSALS = {10: {1, 13, 16, 17}, 11: {1, 16, 17, 19, 20, 21}, 12: {22}, 14: {1, 17, 22}, 15: {1, 17}, 17: {1, 16}, 29: {1, 17}, 30: {1, 17},
            31: {1, 17}, 33: {22}, 34: set(), 35: set(), 37: {1}, 41: set(), 42: set()}


def numbered(r):
    """The number of the message that a record has."""
    return int(r["body"].split()[0])


class Ledger:
    """What was sent and how it was answered."""

    def __init__(self):
        self.sends = {}  # of each message its topic and its queue, which is none where the broker chose it
        self.plain, self.delayed = {}, set()  # which were answered 0, and where the first ones are
        self.halves, self.groups, self.keys = {}, {}, {}  # the half messages that were: where, of which group, with which key
        self.committed, self.rolled_back, self.given_up = set(), set(), set()
        self.seen = {}  # which message pulls found at each place of a queue
        self.count = collections.Counter()

    def note_send(self, number, kind, reply):
        if reply["code"] != 0:
            return
        self.count[kind] += 1
        if kind == "half":
            self.halves[number] = where(reply)
        elif kind == "delayed":
            self.delayed.add(number)
        else:
            fields = reply["extFields"]
            self.plain[number] = int(fields["msgId"][16:], 16), int(fields["queueId"]), int(fields["queueOffset"])

    def note_pull(self, topic, queue, reply):
        for r in pulled(reply["body"]):
            at = topic, queue, r["queue_offset"]
            assert self.seen.setdefault(at, (r["place"], r["body"])) == (r["place"], r["body"]), (at, r)
            self.count["pulled"] += 1

    def note_verdict(self, number, decision, is_its_own, reply):
        """A verdict is taken if nobody decided otherwise before, and told who did if so."""
        states = {"settled committed": self.committed, "settled rolledback": self.rolled_back, "settled discarded": self.given_up}
        if not is_its_own:
            assert told(reply) == (1, "half"), (number, reply)
        elif decision == UNKNOWN:
            assert told(reply) == (0, ""), (number, reply)
        elif reply["code"] == 0:
            (self.committed if decision == COMMIT else self.rolled_back).add(number)
        else:
            states[reply["remark"]].add(number)
        assert not self.committed & self.rolled_back and not self.given_up & (self.committed | self.rolled_back), (number, reply)
        self.count["refused" if reply["code"] else "taken"] += 1


class Dice:
    """The next request, to few topics, queues, groups and clients, so that requests meet."""

    def __init__(self, ledger):
        self.chance, self.ledger = random.Random(SEED), ledger

    def next(self):
        """Its code, its frame, and what to do with the reply."""
        kinds = {self.send: 14, self.verdict: 6, self.pull: 8, self.offset: 4, self.lock: 2, self.heartbeat: 2, self.question: 3,
                 self.find: 2}
        return self.chance.choices(list(kinds), kinds.values())[0]()

    def topic(self):
        return self.chance.choice(TOPICS * 6 + OTHERS)

    def send(self):
        chance, ledger = self.chance, self.ledger
        kind, number = chance.choice(("plain", "plain", "delayed", "half")), len(ledger.sends)
        pairs = [pair for pair in (("TAGS", chance.choice("ab")), ("KEYS", "k"), ("WAIT", "false"), ("UNIQ_KEY", f"u{number}"))
                 if chance.random() < 0.3]
        if kind == "delayed" or chance.random() < 0.1:
            pairs += [("DELAY", str(chance.randrange(1, 20) if kind == "delayed" else 0))]
        body, topic, queue = b"%d " % number + b"x" * chance.randrange(800), self.topic(), chance.choice((-1, 0, 0, 1, 2, 3, 4))
        fields = {"topic": topic, "queueId": str(queue), "producerGroup": chance.choice(GROUPS), "binary": number % 2 == 1,
                  "short": number % 3 == 1, "defaultTopic": chance.choice(("TBW102", "TBW102", "X"))}
        chance.shuffle(pairs)
        ledger.sends[number] = topic, None if queue < 0 else queue
        ledger.groups[number], ledger.keys[number] = fields["producerGroup"], dict(pairs).get("UNIQ_KEY")
        made = half(0, body, pairs, **fields) if kind == "half" else send(0, body, properties=properties(pairs), **fields)
        return 10, made, lambda reply: ledger.note_send(number, kind, reply)

    def verdict(self):
        """Mostly by the group of the half message and with its key, or none."""
        chance, ledger = self.chance, self.ledger
        if not ledger.halves:
            return self.send()
        number = chance.choice(list(ledger.halves)[-12:])
        group, key = chance.choice(GROUPS), chance.choice(("", f"u{number}", "other"))
        decision = chance.choice((COMMIT, ROLLBACK, UNKNOWN))
        is_its_own = group == ledger.groups[number] and (not key or ledger.keys[number] in (None, key))
        made = verdict(0, decision, *ledger.halves[number], group=group, key=key, binary=number % 2 == 0)
        return 37, made, lambda reply: ledger.note_verdict(number, decision, is_its_own, reply)

    def pull(self):
        chance, topic, queue = self.chance, self.topic(), self.chance.randrange(5)
        more = {"subscription": chance.choice(("*", "a", "a || b", "c")), "sysFlag": chance.choice("4510"), "queueId": str(queue),
                "commitOffset": chance.choice("0139"), "consumerGroup": chance.choice(GROUPS)}
        made = pull(0, topic, chance.choice((-1, 0, 0, 1, 2, 3, 5, 8, 39)), chance.choice((-1, 0, 1, 2, 32, 40)), **more)
        return 11, made, lambda reply: self.ledger.note_pull(topic, queue, reply)

    def offset(self):
        names = {"group": self.chance.choice(GROUPS), "topic": self.topic(), "queue": self.chance.randrange(5)}
        if self.chance.random() < 0.5:
            return 14, stored(0, **names), None
        return 15, commit(0, self.chance.choice((0, 1, 3, 9, 30)), **names), None

    def lock(self):
        code, queues = self.chance.choice((41, 42)), [{"topic": "T", "brokerName": "b", "queueId": self.chance.randrange(4)}]
        said = {"consumerGroup": self.chance.choice(GROUPS), "clientId": self.chance.choice(CLIENTS), "mqSet": queues}
        return code, frame({"code": code, "extFields": {}, "flag": 0, "opaque": 0, "version": 395}, json.dumps(said).encode()), None

    def heartbeat(self):
        chance, group, client = self.chance, self.chance.choice(GROUPS), self.chance.choice(CLIENTS)
        head = {"code": chance.choice((34, 34, 35)), "flag": 0, "opaque": 0, "version": 395,
                "extFields": {"clientID": client, "producerGroup": group, "consumerGroup": group}}
        wanted = [{"topic": "T", "subString": chance.choice(("*", "a", "a || b"))}]
        said = {"clientID": client, "producerDataSet": [{"groupName": group}],
                "consumerDataSet": [{"groupName": group, "subscriptionDataSet": wanted}]}
        return head["code"], frame(head, json.dumps(said).encode()), None

    def question(self):
        code, topic, queue = self.chance.choice((29, 30, 31)), self.topic(), self.chance.randrange(5)
        return code, of_group(code, 0, topic=topic, queue=queue, timestamp=str(self.chance.randrange(-5, 9000000))), None

    def find(self):
        ext = {"topic": self.topic(), "key": self.chance.choice(("k", "u1", "u9")), "maxNum": "9", "beginTimestamp": "0",
               "endTimestamp": str(10 ** 7), "offset": str(self.chance.randrange(10 ** 5))}
        code = self.chance.choice((12, 33))
        return code, frame({"code": code, "extFields": ext, "flag": 0, "opaque": 0, "version": 395}), None


class Story:
    """The requests, and what all consumers find behind them."""

    def __init__(self, folder):
        self.ledger, self.clock, self.asked, self.runs = Ledger(), Clock(folder), 0, 0
        dice, left = Dice(self.ledger), REQUESTS
        while left > 0:
            count = min(left, dice.chance.randrange(1, 200))
            left, self.runs = left - count, self.runs + 1
            self.go_on(folder, dice, count)
        self.clock.set(self.clock.now + LATE)
        self.found, self.again = (pulled_all(folder, self.clock, TOPICS) for _ in range(2))

    def go_on(self, folder, dice, count):
        """A run of so many requests that ends or is killed; before that a message is sent that waits for all before it."""
        with Pipe(folder, self.clock, *SMALL) as pipe:
            for _ in range(count):
                self.clock.set(self.clock.now + dice.chance.randrange(5000))
                code, made, note = dice.next()
                reply = pipe.ask(made)
                assert reply["code"] == 0 or reply["code"] in REFUSALS[code], (code, reply)
                self.hear(pipe.checks)
                if note is not None:
                    note(reply)
            assert pipe.ask(send(0, b"", topic="End"))["code"] == 0
            self.hear(pipe.checks)
            if dice.chance.random() < 0.5:
                pipe.end()

    def hear(self, checks):
        """The client is asked about half messages that were sent, and about none that is settled."""
        while checks:
            asked, = pulled(checks.pop()["body"])
            number = numbered(asked)
            assert number in self.ledger.halves and number not in self.ledger.committed | self.ledger.rolled_back, asked
            self.asked += 1


if not is_clock_taken():
    print("skipped: there is no cc, or the program takes no clock of a library")
    sys.exit(0)


FOLDER = tempfile.TemporaryDirectory()
STORIES = []


@check("requests that look like chance are all answered, by codes that theirs may have, and no verdict contradicts another one")
def _(_):
    story = Story(FOLDER.name)
    STORIES.append(story)
    ledger, count = story.ledger, story.ledger.count
    enough = (story.runs, story.asked, count["plain"], count["delayed"], count["half"], count["pulled"], count["taken"],
              count["refused"], len(ledger.committed), len(ledger.rolled_back))
    assert min(enough) >= 10, enough
    print(f"    {story.runs} runs, {count['plain']} messages, {count['delayed']} delayed, {count['half']} half messages, "
          f"{story.asked} check-backs, {len(ledger.committed)} committed, {len(ledger.rolled_back)} rolled back")


@check("each message that was acknowledged is pulled once, where its reply said")
def _(_):
    story, = STORIES
    at = {r["place"]: (r["queue"], r["queue_offset"], numbered(r), r["topic"]) for r in story.found}
    for number, (place, queue, offset) in story.ledger.plain.items():
        topic, wanted = story.ledger.sends[number]
        assert at[place] == (queue, offset, number, topic) and wanted in (None, queue), (number, place, at.get(place))


@check("beside them one delivery of each delayed message and one copy of each half message that is committed are pulled, and no more")
def _(_):
    story, = STORIES
    ledger = story.ledger
    numbers = collections.Counter(numbered(r) for r in story.found)
    assert numbers == collections.Counter([*ledger.plain, *ledger.delayed, *ledger.committed]), numbers
    for r in story.found:
        topic, queue = ledger.sends[numbered(r)]
        assert r["topic"] == topic and queue in (None, r["queue"]), r


@check("what was pulled meanwhile stands where it stood, and the same is pulled once the log is opened again")
def _(_):
    story, = STORIES
    at = {(r["topic"], r["queue"], r["queue_offset"]): (r["place"], r["body"]) for r in story.found}
    assert all(at[where_it_stood] == one for where_it_stood, one in story.ledger.seen.items()) and story.again == story.found
