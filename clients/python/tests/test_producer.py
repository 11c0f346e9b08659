"""Sends: what is asked of the broker, and what each answer, or none, means."""
import struct
import time
import unittest

from fake import Broker, MemoryBroker, Port, Speaker, no_topic, reply, stored, unknown
from mq_client import (BrokerError, BrokerUnavailable, Connection, NotSupported, Outgoing, Producer, SendUnknown,
                       TopicNotFound)
from mq_client.message import read_properties


class Sends(unittest.TestCase):
    def test_a_send_has_its_fields_and_says_where_it_is_stored(self):
        with Broker({10: stored, 31: no_topic}) as broker, Producer(broker.address, "shop") as producer:
            result = producer.send("T", "h\u00e4", tags="A", keys=["k1", "k2"], properties={"x": "y"}, queue=2,
                                   wait=False)
            request = broker.of(10)[0]
        self.assertEqual((result.topic, result.queue, result.queue_offset, result.message_id),
                         ("T", 2, 7, "7F00000100002A9F0000000000000064"))
        self.assertEqual(request.body, "h\u00e4".encode())
        self.assertEqual(read_properties(request.fields["properties"]),
                         {"x": "y", "TAGS": "A", "KEYS": "k1 k2", "UNIQ_KEY": result.unique_key, "WAIT": "false"})
        wanted = {"producerGroup": "shop", "topic": "T", "queueId": "2", "sysFlag": "0", "defaultTopic": "TBW102"}
        self.assertEqual({name: request.fields[name] for name in wanted}, wanted)

    def test_queues_take_turns(self):
        for count in (1, 2, 3, 4, 5, 7, 8, 9, 100, 1023, 1024):
            with MemoryBroker(count) as broker, Producer(broker.address) as producer:
                turns = [producer.send("T", "x").queue for _ in range(min(2 * count, 40))]
                self.assertEqual(turns, [k % count for k in range(len(turns))])
        with Broker({10: stored, 31: no_topic}) as broker, Producer(broker.address, queues=3) as producer:
            self.assertEqual([producer.send("New", "x").queue for _ in range(6)], [0, 1, 2, 0, 1, 2])

    def test_refusals_have_the_code_and_the_remark(self):
        rows = [(1, "queue", BrokerError), (3, "code 10", NotSupported), (13, "topic", BrokerError),
                (17, "no topic", TopicNotFound)]
        for code, remark, kind in rows:
            with Broker({10: lambda request: reply(request, code=code, remark=remark)}) as broker, \
                    Producer(broker.address) as producer, self.assertRaises(kind) as caught:
                producer.send("T", "x", queue=0)
            self.assertEqual((caught.exception.code, caught.exception.remark), (code, remark))

    def test_a_failed_flush_and_no_memory_leave_a_send_unknown(self):
        for code, remark in ((10, "flush 3"), (901, "memory")):
            with Broker({10: lambda request: reply(request, code=code, remark=remark)}) as broker, \
                    Producer(broker.address) as producer, self.assertRaises(SendUnknown) as caught:
                producer.send("T", "x", queue=0)
            self.assertEqual((caught.exception.code, caught.exception.remark), (code, remark))

    def test_a_lost_reply_leaves_a_send_unknown_and_it_is_not_sent_again(self):
        def lose(request):
            broker.drop()
        for answer in (lose, lambda request: None):
            with Broker({10: answer}) as broker, Connection(broker.address, timeout=0.5) as connection:
                producer = Producer(connection)
                with self.assertRaisesRegex(SendUnknown, "not known"):
                    producer.send("T", "x", queue=0)
                with self.assertRaises(SendUnknown):
                    producer.send_async("T", "x", queue=0).result(3)
                time.sleep(0.3)
                self.assertEqual(len(broker.of(10)), 2)

    def test_a_send_to_nobody_is_not_sent(self):
        with Port() as port:
            address = port.address
        with Connection(address, timeout=0.3) as connection, self.assertRaises(BrokerUnavailable):
            Producer(connection).send("T", "x", queue=0)

    def test_where_the_queues_cannot_be_asked_for_nothing_is_sent(self):
        with Broker({10: stored, 31: lambda request: None}) as broker, \
                Connection(broker.address, timeout=0.3) as connection:
            with self.assertRaisesRegex(BrokerUnavailable, "nothing was sent"):
                Producer(connection).send("T", "x")
            self.assertEqual(broker.of(10), [])
        with Speaker(b"HTTP/1.1 400 Bad Request\r\n\r\n") as port, Connection(port.address) as connection:
            with self.assertRaisesRegex(BrokerUnavailable, "HTTP"):
                Producer(connection).send("T", "x")

    def test_thousands_are_sent_without_waiting(self):
        with MemoryBroker(4) as broker, Producer(broker.address) as producer:
            futures = [producer.send_async("T", b"%d" % k) for k in range(3000)]
            found = {(result.queue, result.queue_offset) for result in (future.result(10) for future in futures)}
            self.assertEqual(len(found), 3000)

    def test_a_batch_has_the_form_of_batches(self):
        def answer(request):
            return reply(request, {"msgId": "A,B", "queueId": "0", "queueOffset": "5"})
        with Broker({320: answer, 31: no_topic}) as broker, Producer(broker.address) as producer:
            results = producer.send_batch("T", ["hi", Outgoing(b"ho", properties={"UNIQ_KEY": "u"})])
            request = broker.of(320)[0]
        self.assertEqual([(one.queue_offset, one.message_id) for one in results], [(5, "A"), (6, "B")])
        self.assertEqual((request.fields["b"], request.fields["e"], request.fields["m"]), ("T", "0", "true"))
        at, bodies = 0, []
        while at < len(request.body):
            size, _, _, flag, body_size = struct.unpack_from(">IIIiI", request.body, at)
            bodies.append(request.body[at + 20:at + 20 + body_size])
            text_size, = struct.unpack_from(">H", request.body, at + 20 + body_size)
            self.assertEqual((flag, 22 + body_size + text_size), (0, size))
            at += size
        self.assertEqual((bodies, request.body[-9:]), ([b"hi", b"ho"], b"\x0bUNIQ_KEY\x01u\x02"[-9:]))

    def test_a_delay_level_is_a_property_and_one_that_is_none_is_not_sent(self):
        with Broker({10: stored, 31: no_topic}) as broker, Producer(broker.address) as producer:
            for level in (0, 1, 18):
                self.assertEqual(producer.send("T", "x", delay_level=level, queue=1).queue, 1)
            for level in (-1, 19):
                self.assertRaisesRegex(ValueError, "delay level", producer.send, "T", "x", delay_level=level)
            told = [read_properties(request.fields["properties"]).get("DELAY") for request in broker.of(10)]
        self.assertEqual(told, [None, "1", "18"])

    def test_batches_and_delays_that_a_broker_does_not_serve(self):
        with Broker({10: unknown, 31: no_topic}) as broker, Producer(broker.address) as producer:
            for call in (lambda: producer.send_batch("T", ["x"]), lambda: producer.send("T", "x", delay_level=3)):
                self.assertRaises(NotSupported, call)
            self.assertEqual(len(broker.of(10)), 1)


if __name__ == "__main__":
    unittest.main()
