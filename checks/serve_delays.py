#!/usr/bin/env python3
"""Delayed messages that `serve` delivers by itself, over TCP in real time: checks/serve_delays.py PROGRAM.

How late messages come is measured on a broker that does nothing else. Then eight producers send ten thousand of the levels 1 to 4,
while the broker is killed three times, and twice more while some wait. Each check prints its name; the first that fails ends it.
"""
import collections
import itertools
import logging
import random
import statistics
import sys
import threading
import time

from clocked import pairs_of
from killed_broker import Broker, until
from mq_client import Admin, BrokerUnavailable, Connection, Producer, SendUnknown
from wire import SYSTEM_TOPICS, check, records

LEVEL_TOPIC, TOPIC, QUEUES = SYSTEM_TOPICS[0], "Later", 4
DELAYS = {1: 1000, 2: 5000, 3: 10000, 4: 30000}  # milliseconds
PRODUCERS, EACH, WINDOW = 8, 1250, 25
AWAY = 60  # seconds within which a killed broker has been started again
LATE = 1000  # milliseconds after its time at which a message of a broker that does nothing else has come, on a slow machine too
logging.disable(logging.WARNING)  # that a producer lost its broker is what is checked here


def of_log(log):
    """The delayed messages of a log, level by level, and of each level its deliveries: each message with its delivery. They are in
    order, and each comes once and not before its time."""
    messages, found = collections.defaultdict(list), collections.defaultdict(list)
    for r in log:
        pairs = dict(pairs_of(r["props"]))
        if r["topic"] == LEVEL_TOPIC:
            messages[r["queue"] + 1].append(r)
        elif "DELAY_FROM" in pairs:
            level, number = map(int, pairs["DELAY_FROM"].split("-"))
            assert number == len(found[level]), ("out of order, or again", r)
            message = messages[level][number]
            assert (r["topic"], r["body"]) == (TOPIC, message["body"]) and r["queue"] == int(dict(pairs_of(message["props"]))["REAL_QID"]), r
            assert r["store"] >= message["store"] + DELAYS[level], ("early", message, r)
            found[level].append((message, r))
    return messages, found


class Consumer:
    """What was pulled of the four queues, each message once and in the order of its queue."""

    def __init__(self):
        self.found = [[] for _ in range(QUEUES)]

    def pull(self, address):
        """Pulls all that there is, and answers how many messages there were by now."""
        with Connection(address) as connection:
            admin = Admin(connection)
            for queue, found in enumerate(self.found):
                end = admin.max_offset(TOPIC, queue)
                while len(found) < end:
                    found += [message.body for message in admin.pull(TOPIC, queue, len(found)).messages]
        return sum(map(len, self.found))


@check("a message of level 1 or 2 comes by itself, and soon after its time, to a broker that does nothing else")
def _(folder):
    with Broker(folder) as broker:
        with Connection(broker.address) as connection, Producer(connection, queues=QUEUES) as producer:
            for k in range(40):
                producer.send(TOPIC, b"%d" % k, queue=k % QUEUES, delay_level=1 + k % 2)
                time.sleep(random.Random(k).random() / 10)
        consumer = Consumer()
        until(lambda: consumer.pull(broker.address) == 40, lambda: f"{40 - sum(map(len, consumer.found))} of 40 messages are missed")
    for level, pairs in sorted(of_log(records(folder))[1].items()):
        late = [r["store"] - message["store"] - DELAYS[level] for message, r in pairs]
        print(f"    level {level}: {statistics.median(late):g} ms after its time, {max(late)} at most, {len(late)} messages")
        assert len(late) == 20 and max(late) < LATE, late


@check("one message comes without any request after it, also where the broker was killed while it waited")
def _(folder):
    with Broker(folder) as broker:
        with Connection(broker.address) as connection, Producer(connection, queues=QUEUES) as producer:
            producer.send(TOPIC, b"before", queue=0, delay_level=1)
        broker.kill()
        broker.start()
        with Connection(broker.address) as connection, Producer(connection, queues=QUEUES) as producer:
            producer.send(TOPIC, b"after", queue=0, delay_level=1)
        until(lambda: sum(map(len, of_log(records(folder, whole=False))[1].values())) == 2, "a message is missed")


class Sent:
    """What was sent, and what of it was acknowledged."""

    def __init__(self):
        self.guard, self.numbers, self.acknowledged, self.unknown = threading.Lock(), itertools.count(), set(), 0

    def produce(self, address):
        """Sends messages of each level over a connection of its own, some of them at a time."""
        with Connection(address, timeout=10) as connection, Producer(connection, queues=QUEUES) as producer:
            for _ in range(EACH // WINDOW):
                for body, future in [self.send_one(producer) for _ in range(WINDOW)]:
                    self.settle(body, future)
                time.sleep(0.05)

    def send_one(self, producer):
        with self.guard:
            number = next(self.numbers)
        body, end = b"%d" % number, time.time() + AWAY
        while True:
            try:
                return body, producer.send_async(TOPIC, body, queue=number % QUEUES, delay_level=1 + number // QUEUES % 4)
            except BrokerUnavailable:  # it isn't stored
                assert time.time() < end, "the broker stays away"
                time.sleep(0.05)

    def settle(self, body, future):
        try:
            told = future.result(20)
        except (SendUnknown, BrokerUnavailable):
            told = None
        with self.guard:
            self.unknown += told is None
            if told is not None:
                self.acknowledged.add(body)


def through_kills(folder, sent, consumer):
    """Sends all, while the broker is killed, and consumes until nothing waits. Answers how many times it was killed."""
    faults, kills = [], 0

    def guarded():
        try:
            sent.produce(broker.address)
        except BaseException as fault:  # it is raised again below
            faults.append(fault)

    def kill():
        broker.kill()
        broker.start()

    with Broker(folder) as broker:
        with Connection(broker.address) as connection:
            Admin(connection).create_topic(TOPIC, QUEUES)
        threads = [threading.Thread(target=guarded, daemon=True) for _ in range(PRODUCERS)]
        for thread in threads:
            thread.start()
        for kills in range(1, 4):
            time.sleep(0.7)
            kill()
        for thread in threads:
            thread.join(120)
        if faults:
            raise faults[0]
        for kills in range(4, 6):
            time.sleep(4)
            kill()
        stored = sum(r["topic"] == LEVEL_TOPIC for r in records(folder, whole=False))
        until(lambda: consumer.pull(broker.address) >= stored, lambda: f"{sum(map(len, consumer.found))} of {stored} came", 90)
    return kills


@check(f"{PRODUCERS * EACH} messages of levels 1 to 4 through five kills come each once, in order, none early, and none that was acknowledged is lost")
def _(folder):
    sent, consumer = Sent(), Consumer()
    kills = through_kills(folder, sent, consumer)
    messages, found = of_log(records(folder, whole=False))
    assert {level: len(items) for level, items in messages.items()} == {level: len(items) for level, items in found.items()}
    bodies = [body for queue in consumer.found for body in queue]
    assert len(bodies) == len(set(bodies)) and sent.acknowledged <= set(bodies), sent.acknowledged - set(bodies)
    assert sent.acknowledged, "none was acknowledged"
    for queue in range(QUEUES):
        log = sorted((r["queue_offset"], r["body"]) for pairs in found.values() for _, r in pairs if r["queue"] == queue)
        assert [body for _, body in log] == consumer.found[queue], queue
    late = sorted(r["store"] - message["store"] - DELAYS[level] for level, pairs in found.items() for message, r in pairs)
    print(f"    {len(sent.acknowledged)} acknowledged, {sent.unknown} of unknown fate, {len(bodies)} consumed, {kills} kills; "
          f"{late[len(late) // 2]} ms after its time (median), {late[-1]} at most")
