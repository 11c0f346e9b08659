#!/usr/bin/env python3
"""Transfers between two accounts over TCP in real time: checks/serve_transfers.py PROGRAM.

Who is asked back, and when, is checked with one producer that doesn't decide at once. Then eight producers store transfers as half
messages and decide them; ten times the broker is killed meanwhile. The first account pays when a producer decides to commit, the
second gets what a consumer sees. What the broker wasn't told it asks. Each check prints its name; the first that fails ends it.
"""
import logging
import random
import threading
import time

from killed_broker import WAIT, Broker, until
from mq_client import Admin, BrokerUnavailable, Connection, Decision, SendUnknown, TransactionProducer
from wire import SYSTEM_TOPICS, check, records

PRODUCERS, KILLS = 8, 10
FIRST_CHECK = 6  # seconds after a half message was stored
PAUSE = 0.45  # seconds between two kills
ALL_ASKED = 90  # seconds in which each check-back has come, also where the first one was lost
HALF_TOPIC, OP_TOPIC = SYSTEM_TOPICS[1:3]
logging.disable(logging.WARNING)  # that a producer lost its broker is what is checked here


class Bank:
    """The first account: which transfers there are, and what was decided of each."""

    def __init__(self):
        self.guard, self.chance = threading.Lock(), random.Random(20261130)
        self.sums, self.decided, self.acknowledged = [], {}, set()
        self.checks = self.unknown = 0

    def transfer(self):
        """The number of a new transfer, and the body of its message."""
        with self.guard:
            self.sums.append(self.chance.randrange(1, 1000))
            return len(self.sums) - 1, b"%d %d" % (len(self.sums) - 1, self.sums[-1])

    def execute(self, _, number):
        """A producer decides; one of five forgets the transfer before it does."""
        return Decision.UNKNOWN if self.chance.random() < 0.2 else self.decide(number)

    def check(self, message):
        """The broker asks: what was decided, or is now."""
        self.checks += 1
        return self.decide(int(message.body.split()[0]))

    def decide(self, number):
        with self.guard:
            return self.decided.setdefault(number, self.chance.choice([Decision.COMMIT, Decision.COMMIT, Decision.ROLLBACK]))

    def produce(self, address, is_sending):
        """Makes transfers over a connection of its own."""
        with Connection(address, timeout=2) as connection, TransactionProducer(connection, "Bank", self) as producer:
            while is_sending.is_set():
                self.send_one(producer)
                time.sleep(0.002)

    def send_one(self, producer):
        number, body = self.transfer()
        try:
            result = producer.send_in_transaction("Transfers", body, number, queue=number % 4)
        except (SendUnknown, BrokerUnavailable):
            self.unknown += 1
            return
        if result.decision == Decision.COMMIT and result.fault is None:
            with self.guard:
                self.acknowledged.add(number)

    def committed(self):
        with self.guard:
            return {number for number, decision in self.decided.items() if decision == Decision.COMMIT}


def open_halves(folder):
    """The half messages of the log on the disk that nothing has settled, by their numbers in their queue."""
    log = records(folder, whole=False)
    stored = {r["queue_offset"] for r in log if r["topic"] == HALF_TOPIC and "TRAN_PREPARED_QUEUE_OFFSET" not in r["props"]}
    return stored - {int(r["body"]) for r in log if r["topic"] == OP_TOPIC}


def consumed(address):
    """The transfers that a consumer sees, in the order of each queue."""
    found = []
    with Connection(address) as connection:
        admin = Admin(connection)
        for queue in range(4):
            offset = 0
            while True:
                pulled = admin.pull("Transfers", queue, offset)
                found += [tuple(int(word) for word in message.body.split()) for message in pulled.messages]
                if pulled.next_offset == offset:
                    break
                offset = pulled.next_offset
    return found


def settle_the_rest(broker, bank):
    """Has the broker ask for what is open. Nothing else is sent meanwhile but the verdicts and heartbeats."""
    with Connection(broker.address) as connection, TransactionProducer(connection, "Bank", bank):
        until(lambda: not open_halves(broker.folder), lambda: f"half messages that nothing settles: {open_halves(broker.folder)}",
              ALL_ASKED)


def asked_once(producer):
    """The one check-back that comes to a producer by itself."""
    found = list(producer.checks(count=1, idle=WAIT))
    assert len(found) == 1, "nobody is asked"
    return found[0]


@check("a producer that doesn't decide is asked by itself six seconds later, and where it has gone another one of its group")
def _(folder):
    with Broker(folder) as broker, Connection(broker.address) as near, Connection(broker.address) as far, \
            Connection(broker.address) as apart:
        first = TransactionProducer(near, "Bank")
        time.sleep(1)  # by then a heartbeat has told who is there
        with TransactionProducer(far, "Bank") as second, TransactionProducer(apart, "Till") as other:
            time.sleep(1)
            for number, producer in enumerate((first, other)):
                producer.send_half("Transfers", b"%d 100" % number, queue=number)
            stored = time.monotonic()
            asked = [asked_once(producer) for producer in (first, other)]
            assert time.monotonic() - stored > FIRST_CHECK - 0.5 and [one.message.body for one in asked] == [b"0 100", b"1 100"], asked
            first.end_transaction(asked[0], Decision.COMMIT)
            other.end_transaction(asked[1], Decision.ROLLBACK)
            first.send_half("Transfers", b"2 100", queue=2)
            first.close()
            near.close()
            late = asked_once(second)
            assert late.message.body == b"2 100", late
            second.end_transaction(late, Decision.COMMIT)
            until(lambda: not open_halves(folder), "a half message is open")
            assert consumed(broker.address) == [(0, 100), (2, 100)]
            assert [list(one.checks(idle=0.5)) for one in (second, other)] == [[], []]


class Story:
    """All transfers through ten kills, until nothing is left open."""

    def __init__(self, folder):
        self.bank, self.faults, is_sending = Bank(), [], threading.Event()
        is_sending.set()
        with Broker(folder) as broker:
            threads = [threading.Thread(target=self.guarded, args=(broker.address, is_sending), daemon=True) for _ in range(PRODUCERS)]
            for thread in threads:
                thread.start()
            for _ in range(KILLS):
                time.sleep(PAUSE)
                broker.kill()
                broker.start()
            time.sleep(PAUSE)
            is_sending.clear()
            for thread in threads:
                thread.join(20)
            if self.faults:
                raise self.faults[0]
            broker.kill()
            self.left_open = len(open_halves(folder))
            broker.start()
            settle_the_rest(broker, self.bank)
            self.seen = consumed(broker.address)

    def guarded(self, address, is_sending):
        try:
            self.bank.produce(address, is_sending)
        except BaseException as fault:  # it is raised again by the thread that waits for this one
            self.faults.append(fault)


STORIES = []


@check(f"of transfers over {PRODUCERS} connections and {KILLS} kills each is settled, by its producer or after a check-back")
def _(folder):
    story = Story(folder)
    STORIES.append(story)
    bank = story.bank
    counts = (len(bank.acknowledged), bank.unknown, story.left_open, bank.checks)
    assert min(counts) > 0, counts
    print(f"    {len(bank.sums)} transfers, {counts[0]} acknowledged as committed, {counts[1]} of unknown fate, {counts[2]} left open, "
          f"{counts[3]} check-backs")


@check("no transfer is seen twice, and none in another sum than it was sent with")
def _(_):
    story, = STORIES
    numbers = [number for number, _ in story.seen]
    assert len(numbers) == len(set(numbers)), sorted({number for number in numbers if numbers.count(number) > 1})
    assert all(story.bank.sums[number] == amount for number, amount in story.seen)


@check("no transfer is lost whose Commit was acknowledged, and all are seen that a producer decided to commit")
def _(_):
    story, = STORIES
    seen = {number for number, _ in story.seen}
    assert story.bank.acknowledged <= story.bank.committed() == seen, (story.bank.committed() ^ seen)


@check("the two accounts have together what they had")
def _(_):
    story, = STORIES
    before = (10 ** 6, 0)
    after = before[0] - sum(story.bank.sums[number] for number in story.bank.committed()), sum(amount for _, amount in story.seen)
    assert sum(after) == sum(before) and after != before, (before, after)
