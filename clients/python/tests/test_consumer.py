"""Consumers: which messages are given, in which order, how often, and what is stored of how far the group came."""
import json
import threading
import time
import unittest
from unittest import mock

from fake import MemoryBroker, Port, Speaker, reply, until
from mq_client import BrokerError, BrokerUnavailable, Connection, Consumer, NotSupported, ProtocolError
from mq_client.errors import ConnectionLost
from mq_client.message import Message
from mq_client.queue_state import QueueState


def message(offset, tags=""):
    return Message("T", 0, offset, b"", {"TAGS": tags} if tags else {}, "", 0, 0, 0)


def state_with(count, is_ordered=False, tags="*"):
    state = QueueState(("T", 0), tags, is_ordered)
    state.locked_until = float("inf")
    state.begin(0)
    state.found([message(k) for k in range(count)], count)
    return state


class States(unittest.TestCase):
    def test_what_is_done_counts_up_to_the_first_that_is_not(self):
        state = state_with(4)
        first, second, third = (state.take(0) for _ in range(3))
        state.finish(second)
        state.finish(third)
        self.assertEqual(state.next_undone(), 0)
        state.finish(first)
        self.assertEqual(state.next_undone(), 3)
        state.finish(state.take(0))
        self.assertEqual((state.next_undone(), state.take(0)), (4, None))

    def test_in_order_nothing_is_given_before_the_one_in_work_is_done_or_has_paused(self):
        state = state_with(3, True)
        first = state.take(0)
        self.assertIsNone(state.take(0))
        state.put_back(first, 10)
        self.assertIsNone(state.take(9))
        self.assertEqual(state.take(10), first)
        state.finish(first)
        self.assertEqual(state.take(10).queue_offset, 1)

    def test_out_of_order_others_are_given_while_one_pauses(self):
        state = state_with(3)
        state.put_back(state.take(0), 10)
        self.assertEqual([state.take(0).queue_offset, state.take(0).queue_offset, state.take(0)], [1, 2, None])
        self.assertEqual((state.next_undone(), state.take(10).queue_offset), (0, 0))

    def test_a_queue_that_was_lost_begins_after_what_was_done(self):
        state = state_with(3, True)
        state.finish(state.take(0))
        second = state.take(0)
        state.forget()
        self.assertEqual((state.take(0), state.held, state.floor, state.is_idle), (None, 0, 1, False))
        state.finish(second)
        self.assertEqual((state.floor, state.is_idle, state.next_undone()), (2, True, None))

    def test_tags_are_compared_as_texts(self):
        state = state_with(0, tags="A || B")
        state.found([message(0, "A"), message(1, "C"), message(2), message(3, "B")], 4)
        self.assertEqual([state.take(0).queue_offset, state.take(0).queue_offset, state.take(0)], [0, 3, None])

    def test_pulls_that_find_nothing_at_once_wait_longer_each_time(self):
        state, waits = state_with(0), []
        for _ in range(9):
            state.found_nothing(0, 0.001)
            waits.append(state.due)
        self.assertEqual((waits[0], waits[-1], waits == sorted(waits)), (0.05, 0.5, True))
        state.found_nothing(100, 15)
        self.assertEqual(state.due, 0.0)


class Consumers(unittest.TestCase):
    def test_all_queues_are_given_and_the_next_consumer_continues(self):
        with MemoryBroker(3) as broker, Connection(broker.address) as connection:
            broker.put(0, *(b"0 %d" % k for k in range(100)))
            broker.put(2, *(b"2 %d" % k for k in range(5)))
            with Consumer(connection, "G", "T") as consumer:
                found = [(one.queue, one.body) for one in consumer.messages(count=105, idle=5)]
            self.assertEqual([body for queue, body in found if queue == 0], [b"0 %d" % k for k in range(100)])
            self.assertEqual([body for queue, body in found if queue == 2], [b"2 %d" % k for k in range(5)])
            self.assertEqual([broker.offsets["G", queue] for queue in (0, 2)], [100, 5])
            broker.put(1, b"new")
            with Consumer(connection, "G", "T") as consumer:
                self.assertEqual([one.body for one in consumer.messages(idle=1.5)], [b"new"])

    def test_what_was_in_work_is_given_again(self):
        with MemoryBroker(1) as broker, Connection(broker.address) as connection:
            broker.put(0, b"a", b"b", b"c")
            with Consumer(connection, "G", "T") as consumer:
                for one in consumer:
                    if one.body == b"b":
                        break
            with Consumer(connection, "G", "T") as consumer:
                self.assertEqual([one.body for one in consumer.messages(idle=1.5)], [b"b", b"c"])

    def test_given_queues_tags_and_the_last_start(self):
        with MemoryBroker(3) as broker, Connection(broker.address) as connection:
            broker.put(0, b"x")
            broker.put(1, b"a", tags="A")
            broker.put(1, b"b", tags="B")
            with Consumer(connection, "G", queues=[("T", 1)], tags="B") as consumer:
                self.assertEqual([one.body for one in consumer.messages(idle=1.5)], [b"b"])
            with Consumer(connection, "H", "T", start="last") as consumer:
                self.assertTrue(until(lambda: len(consumer.owned()) == 3))
                time.sleep(0.3)
                broker.put(0, b"later")
                self.assertEqual([one.body for one in consumer.messages(idle=2)], [b"later"])

    def test_a_topic_that_comes_later_is_found(self):
        with MemoryBroker(1) as broker, Connection(broker.address) as connection:
            queues, broker.queues = broker.queues, []
            broker.answers[31] = lambda request: broker._ends(request) if broker.queues else reply(request, code=17)
            with Consumer(connection, "G", "T") as consumer:
                self.assertIsNone(consumer.poll(0.2))
                broker.queues = queues
                broker.put(0, b"first")
                self.assertEqual([one.body for one in consumer.messages(count=1, idle=3)], [b"first"])

    def test_a_pull_that_is_held_is_answered_late_and_not_asked_again(self):
        with MemoryBroker(1) as broker, Connection(broker.address, timeout=0.3) as connection:
            broker.holds = True
            with Consumer(connection, "G", "T") as consumer:
                self.assertIsNone(consumer.poll(0.8))
                pulls = broker.of(11)
                asked = pulls[0].fields
                self.assertEqual((len(pulls), asked["suspendTimeoutMillis"]), (1, "15000"))
                self.assertEqual(int(asked["sysFlag"]) & 2, 2)
                broker.put(0, b"late")
                broker.say(broker._pull(pulls[0]))
                self.assertEqual(consumer.poll(1).body, b"late")

    def test_a_function_that_fails_gets_its_message_again(self):
        with MemoryBroker(2) as broker, Connection(broker.address) as connection:
            broker.put(0, b"a", b"bad", b"c")
            broker.put(1, b"d")
            calls, guard = [], threading.Lock()

            def work(one):
                with guard:
                    calls.append(one.body)
                    if calls.count(b"bad") < 3 and one.body == b"bad":
                        raise RuntimeError("as planned")
            with Consumer(connection, "G", "T") as consumer, self.assertLogs("mq_client", "ERROR"):
                consumer.run(work, workers=3, idle=1.0)
            self.assertEqual(sorted(calls), [b"a", b"bad", b"bad", b"bad", b"c", b"d"])
            self.assertEqual(broker.offsets["G", 0], 3)

    def test_messages_are_sent_back_where_that_is_served(self):
        def fail(one):
            raise RuntimeError("as planned")
        with MemoryBroker(1) as broker, Connection(broker.address) as connection:
            broker.put(0, b"bad")
            with Consumer(connection, "G", "T") as consumer:
                with self.assertRaises(NotSupported):
                    consumer.send_back(message(0))
                broker.answers[36] = reply
                with self.assertLogs("mq_client", "ERROR"):
                    consumer.run(fail, idle=1.5)
            back = broker.of(36)
            self.assertEqual((len(back), back[1].fields["group"], back[1].fields["originTopic"]), (2, "G", "T"))
            self.assertEqual(broker.offsets["G", 0], 1)

    def test_the_first_contact_fails_at_once_where_there_is_no_broker(self):
        with Port() as port:
            address = port.address
        with Connection(address, timeout=0.3) as connection, self.assertRaises(BrokerUnavailable):
            Consumer(connection, "G", "T")
        with Speaker(b"HTTP/1.1 400 Bad Request\r\n\r\n") as port, Connection(port.address, timeout=1) as connection:
            with self.assertRaises((ProtocolError, ConnectionLost)):  # the second where it was closed before it was read
                Consumer(connection, "G", "T")

    def test_a_broker_that_stays_away_is_reported_once_patience_is_over(self):
        with self.assertLogs("mq_client", "WARNING"):
            with MemoryBroker(1) as broker:
                broker.put(0, b"a")
                connection = Connection(broker.address, timeout=0.3)
                consumer = Consumer(connection, "G", "T", patience=0.5)
                consumer.done(consumer.poll(2))
            began = time.monotonic()
            with self.assertRaises(BrokerUnavailable):
                while time.monotonic() < began + 5:
                    consumer.poll(0.1)
            consumer.close()
            connection.close()
        self.assertLess(time.monotonic() - began, 5)

    def test_a_broker_that_comes_again_is_pulled_from_again(self):
        with MemoryBroker(1) as broker, Connection(broker.address) as connection:
            broker.put(0, b"a")
            with Consumer(connection, "G", "T") as consumer:
                consumer.done(consumer.poll(2))
                broker.drop()
                broker.put(0, b"b")
                self.assertEqual(consumer.poll(3).body, b"b")


class Failures(unittest.TestCase):
    def test_a_refusal_that_stays_ends_a_consumer_and_one_that_passes_does_not(self):
        with MemoryBroker(1) as broker, Connection(broker.address) as connection:
            broker.put(0, b"a")
            pull, passing = broker.answers[11], [(901, "memory"), (1, "read 1"), (17, "no topic")]

            def refuse(request):
                if passing:
                    code, remark = passing.pop()
                    return reply(request, code=code, remark=remark)
                return pull(request)
            broker.answers[11] = refuse
            with self.assertLogs("mq_client", "WARNING"), Consumer(connection, "G", "T") as consumer:
                self.assertEqual(consumer.poll(3).body, b"a")
                passing.append((16, "system topic"))
                with self.assertRaises(BrokerError) as caught:
                    consumer.poll(3)
                self.assertEqual(caught.exception.code, 16)

    def test_damaged_messages_end_a_consumer(self):
        with MemoryBroker(1) as broker, Connection(broker.address) as connection:
            broker.answers[11] = lambda request: reply(request, {"nextBeginOffset": "1"}, b"no record")
            with Consumer(connection, "G", "T") as consumer, self.assertRaises(ProtocolError):
                consumer.poll(3)

    def test_a_close_ends_the_threads_of_run_and_an_error_of_the_broker_is_raised_by_it(self):
        with MemoryBroker(1) as broker, Connection(broker.address) as connection:
            consumer = Consumer(connection, "G", "T")
            thread = threading.Thread(target=consumer.run, args=(lambda one: None,), kwargs={"workers": 3})
            thread.start()
            consumer.close()
            thread.join(5)
            self.assertFalse(thread.is_alive())
            broker.answers[11] = lambda request: reply(request, code=16)
            with Consumer(connection, "G", "T") as consumer, self.assertRaises(BrokerError):
                consumer.run(lambda one: None, workers=3)


class Locks(unittest.TestCase):
    def setUp(self):
        self.broker = MemoryBroker(4)
        self.owners = {}
        self.broker.answers.update({41: self.lock, 42: self.unlock})

    def tearDown(self):
        self.broker.__exit__()

    def lock(self, request):
        said = json.loads(request.body)
        got = [one for one in said["mqSet"]
               if self.owners.setdefault(one["queueId"], said["clientId"]) == said["clientId"]]
        return reply(request, body=json.dumps({"lockOKMQSet": got}).encode())

    def unlock(self, request):
        said = json.loads(request.body)
        for one in said["mqSet"]:
            if self.owners.get(one["queueId"]) == said["clientId"]:
                del self.owners[one["queueId"]]
        return reply(request)

    def consumer(self, connection, **more):
        return Consumer(connection, "G", "T", ordered=True, **more)

    def test_two_consumers_share_the_queues_and_one_takes_over_when_the_other_ends(self):
        with Connection(self.broker.address) as one, Connection(self.broker.address) as other:
            first, second = self.consumer(one, max_queues=3), self.consumer(other)
            self.assertTrue(until(lambda: (len(first.owned()), len(second.owned())) in ((3, 1), (0, 4))))
            mine = set(first.owned())
            self.assertEqual(mine & set(second.owned()), set())
            first.close()
            self.assertTrue(until(lambda: len(second.owned()) == 4))
            second.close()
            self.assertEqual(self.owners, {})

    def test_a_queue_that_somebody_else_has_is_not_worked_on(self):
        self.owners[0] = "somebody"
        self.broker.put(0, b"theirs")
        self.broker.put(1, b"mine")
        with Connection(self.broker.address) as connection, self.consumer(connection) as consumer:
            self.assertEqual([one.body for one in consumer.messages(idle=1.5)], [b"mine"])
            del self.owners[0]
            self.assertEqual([one.body for one in consumer.messages(idle=1.5)], [b"theirs"])

    def test_locks_are_renewed(self):
        with mock.patch("mq_client.fetcher.RENEW_SECONDS", 0.2), Connection(self.broker.address) as connection:
            with self.consumer(connection):
                self.assertTrue(until(lambda: len(self.broker.of(41)) >= 5))
                for request in self.broker.of(41):
                    self.assertEqual({one["queueId"] for one in json.loads(request.body)["mqSet"]}, {0, 1, 2, 3})

    def test_a_lock_that_could_not_be_renewed_is_not_relied_on(self):
        with mock.patch("mq_client.fetcher.TRUST_SECONDS", 1.0), Connection(self.broker.address) as connection:
            with self.consumer(connection) as consumer:
                self.assertTrue(until(lambda: len(consumer.owned()) == 4))
                self.assertTrue(until(lambda: not consumer.owned()))
                self.broker.put(0, b"late")
                self.assertIsNone(consumer.poll(0.5))

    def test_after_the_connection_was_lost_locks_are_asked_for_before_more_is_given(self):
        with Connection(self.broker.address) as connection, self.consumer(connection) as consumer:
            self.assertTrue(until(lambda: len(consumer.owned()) == 4))
            self.broker.put(2, *(b"%d" % k for k in range(50)))
            for _ in range(10):
                one = consumer.poll(2)
                consumer.done(one)
            self.assertEqual(one.body, b"9")
            self.broker.drop()
            self.owners[2] = "somebody"
            self.assertTrue(until(lambda: len(consumer.owned()) == 3))
            self.assertIsNone(consumer.poll(0.3))
            self.broker.offsets["G", 2] = 20  # how far somebody came
            del self.owners[2]
            self.assertEqual(consumer.poll(3).body, b"20")


if __name__ == "__main__":
    unittest.main()
