"""Transactions: what a decision says to the broker, what it may answer, and what the broker asks."""
import os
import shlex
import sys
import threading
import unittest

import fake
from fake import Broker, no_topic, record, reply, stored, until
from mq_client import (BrokerError, BrokerUnavailable, Check, Connection, Decision, HalfName, NotSupported,
                       ProtocolError, SendUnknown, TransactionProducer)
from mq_client.__main__ import main
from mq_client.frame import Frame
from mq_client.message import read_properties

HALF = HalfName(7, "7F00000100002A9F0000000000000064", "K")


class Listener:
    def __init__(self, decision):
        self.decision, self.executed, self.checked = decision, [], []

    def execute(self, message, argument):
        self.executed.append((message, argument))
        if isinstance(self.decision, Exception):
            raise self.decision
        return self.decision

    def check(self, message):
        self.checked.append(message)
        return Decision.ROLLBACK


class Transactions(unittest.TestCase):
    def run_one(self, listener, ended=reply):
        """The result, and the requests that ended transactions."""
        with Broker({10: stored, 31: no_topic, 34: reply, 35: reply, 37: ended}) as broker:
            with TransactionProducer(broker.address, "G", listener) as producer:
                try:
                    return producer.send_in_transaction("T", "hi", "argument"), broker
                finally:
                    self.broker = broker

    def test_the_decision_is_told_with_the_place_of_the_half_message(self):
        for decision in Decision:
            listener = Listener(decision)
            result, broker = self.run_one(listener)
            self.assertEqual((result.decision, result.fault), (decision, None))
            self.assertEqual(listener.executed, [(result.half, "argument")])
            half, end = broker.of(10)[0].fields, broker.of(37)[0].fields
            self.assertEqual((half["sysFlag"], read_properties(half["properties"])["TRAN_MSG"]), ("4", "true"))
            wanted = {"producerGroup": "G", "tranStateTableOffset": "7", "commitLogOffset": "100",
                      "commitOrRollback": str(int(decision)), "fromTransactionCheck": "false",
                      "msgId": result.half.unique_key, "transactionId": result.half.unique_key}
            self.assertEqual(end, wanted)

    def test_a_listener_that_raises_leaves_it_undecided(self):
        with self.assertRaisesRegex(RuntimeError, "as planned"):
            self.run_one(Listener(RuntimeError("as planned")))
        self.assertEqual([end.fields["commitOrRollback"] for end in self.broker.of(37)], ["0"])

    def test_a_broker_that_cannot_be_told_is_named_in_the_result(self):
        result, _ = self.run_one(Listener(Decision.COMMIT), lambda request: reply(request, code=1, remark="half"))
        self.assertEqual((result.decision, result.fault.code, result.fault.remark), (Decision.COMMIT, 1, "half"))

    def test_a_producer_without_a_listener_makes_the_steps_itself(self):
        with Broker({10: stored, 31: no_topic, 34: reply, 35: reply, 37: reply}) as broker, \
                TransactionProducer(broker.address, "G") as producer:
            half = producer.send_half("T", "hi", tags="A", queue=3)
            for decision in Decision:
                producer.end_transaction(half, decision)
            producer.end_transaction(HalfName.read(str(HalfName.of(half))), Decision.COMMIT)
            self.assertRaisesRegex(ValueError, "no listener", producer.send_in_transaction, "T", "x")
            sent, ends = broker.of(10), [request.fields for request in broker.of(37)]
        said = read_properties(sent[0].fields["properties"])
        self.assertEqual({name: said[name] for name in ("TAGS", "TRAN_MSG", "PGROUP")},
                         {"TAGS": "A", "TRAN_MSG": "true", "PGROUP": "G"})
        self.assertEqual((sent[0].fields["sysFlag"], len(sent)), ("4", 1))
        self.assertEqual([end["commitOrRollback"] for end in ends], ["0", "8", "12", "8"])
        self.assertEqual({(end["tranStateTableOffset"], end["commitLogOffset"], end["msgId"]) for end in ends},
                         {("7", "100", half.unique_key)})

    def decided(self, answer, **settings):
        """What `end_transaction` raises where the broker answers so, and the broker."""
        with Broker({34: reply, 35: reply, 37: answer}) as broker, \
                Connection(broker.address, **settings) as connection, \
                TransactionProducer(connection, "G") as producer, self.assertRaises(Exception) as caught:
            producer.end_transaction(HALF, Decision.COMMIT)
        return caught.exception, broker

    def test_refusals_of_a_decision_have_the_code_and_the_remark(self):
        rows = [(1, "half"), (1, "settled rolledback"), (1, "settled discarded"), (14, "log end")]
        for code, remark in rows:
            fault, _ = self.decided(lambda request: reply(request, code=code, remark=remark))
            self.assertEqual((type(fault), fault.code, fault.remark), (BrokerError, code, remark))
        self.assertIs(type(self.decided(fake.unknown)[0]), NotSupported)

    def test_a_decision_that_may_be_stored_or_not_is_unknown(self):
        for code, remark in ((10, "flush 3"), (901, "memory")):
            fault, broker = self.decided(lambda request: reply(request, code=code, remark=remark))
            self.assertEqual((type(fault), fault.code, len(broker.of(37))), (SendUnknown, code, 1))
        fault, _ = self.decided(lambda request: None, timeout=0.4)
        self.assertIs(type(fault), SendUnknown)

    def test_a_decision_whose_reply_is_lost_is_told_again(self):
        def counted(request):
            counts.append(request)
            if len(counts) == 1:
                broker.drop()
                return None
            return reply(request)
        counts = []
        with Broker({34: reply, 35: reply, 37: counted}) as broker, \
                TransactionProducer(broker.address, "G") as producer:
            producer.end_transaction(HALF, Decision.COMMIT)
        self.assertEqual(len(counts), 2)

    def test_names_of_half_messages_are_read_as_they_are_written(self):
        for half in (HALF, HalfName(0, HALF.message_id), HalfName(2 ** 62 - 1, "F" * 32, "a-b")):
            self.assertEqual(HalfName.read(str(half)), half)
        for text in ("", "7", "7-", "-" + "F" * 32, "x-" + "F" * 32, "7-" + "F" * 31, "7-" + "f" * 32,
                     "\u0661-" + "F" * 32):
            self.assertRaises(ValueError, HalfName.read, text)

    def test_check_backs_are_given_one_after_another_and_answered(self):
        with Broker({34: reply, 35: reply, 37: reply}) as broker, TransactionProducer(broker.address, "G") as producer:
            self.assertEqual(list(producer.checks(idle=0.1)), [])
            self.assertTrue(until(lambda: len(broker.of(34)) > 0))
            for k in range(3):
                body = record("T", b"%d" % k, properties=f"UNIQ_KEY\x01u{k}\x02")
                broker.say(Frame(39, k, {"commitLogOffset": str(178 + k), "tranStateTableOffset": str(k)}, body, 2))
            broker.say(Frame(39, 9, {}, record("T", b"x"), 2))
            broker.say(Frame(39, 9, {"commitLogOffset": "0", "tranStateTableOffset": "0"}, b"", 2))
            for check in producer.checks(count=2):
                producer.end_transaction(check, Decision.ROLLBACK)
            self.assertEqual([check.message.body for check in producer.checks(idle=0.3)], [b"2"])
            ends = [request.fields for request in broker.of(37)]
        names = ("tranStateTableOffset", "commitLogOffset", "msgId", "fromTransactionCheck")
        self.assertEqual([tuple(end[name] for name in names) for end in ends],
                         [("0", "178", "u0", "true"), ("1", "179", "u1", "true")])
        with Broker({34: reply, 35: reply}) as broker, \
                TransactionProducer(broker.address, "G", Listener(Decision.COMMIT)) as producer:
            self.assertRaises(ValueError, next, producer.checks())

    def test_what_is_no_check_back_is_reported(self):
        for fields, body in (({}, record("T", b"")), ({"tranStateTableOffset": "x"}, record("T", b"")),
                             ({"commitLogOffset": "0", "tranStateTableOffset": "0"}, b"x")):
            request = Frame(39, 0, fields, body, 2)
            self.assertRaises(ProtocolError, Check.of, request)

    def test_the_shell_stores_decides_and_answers(self):
        with Broker({10: stored, 31: no_topic, 34: reply, 35: reply, 37: reply}) as broker:
            rows = [(["send", "T", "x", "--half"], 0), (["send", "T", "x", "--half", "--delay", "1"], 1),
                    (["commit", str(HALF), "--group", "G"], 0), (["rollback", str(HALF)], 0), (["commit", "x"], 1),
                    (["check", "--answer", "commit", "--idle", "0.1"], 0)]
            with open(os.devnull, "w") as nowhere:
                kept, sys.stdout, sys.stderr = (sys.stdout, sys.stderr), nowhere, nowhere
                try:
                    found = [main(["--broker", broker.address, *words]) for words, _ in rows]
                finally:
                    sys.stdout, sys.stderr = kept
            self.assertEqual(found, [status for _, status in rows])
            said = [(end.fields["producerGroup"], end.fields["commitOrRollback"]) for end in broker.of(37)]
        self.assertEqual((said, len(broker.of(10))), ([("G", "8"), ("producers", "12")], 1))

    def test_where_transactions_are_not_served_nothing_is_executed(self):
        listener = Listener(Decision.COMMIT)
        with Broker({31: no_topic, 34: reply, 35: reply}) as broker, \
                TransactionProducer(broker.address, "G", listener) as producer:
            with self.assertRaises(NotSupported):
                producer.send_in_transaction("T", "hi")
        self.assertEqual(listener.executed, [])

    def test_a_check_back_is_answered_by_the_listener(self):
        listener = Listener(Decision.COMMIT)
        with Broker({34: reply, 35: reply, 37: reply}) as broker, TransactionProducer(broker.address, "G", listener):
            self.assertTrue(until(lambda: len(broker.of(34)) > 0))
            body = record("T", b"half", properties="UNIQ_KEY\x01u\x02")
            broker.say(Frame(39, 0, {"commitLogOffset": "178", "tranStateTableOffset": "1", "msgId": "u"}, body, 2))
            self.assertTrue(until(lambda: len(broker.of(37)) == 1))
            end = broker.of(37)[0].fields
        self.assertEqual([one.body for one in listener.checked], [b"half"])
        wanted = {"producerGroup": "G", "tranStateTableOffset": "1", "commitLogOffset": "178", "commitOrRollback": "12",
                  "fromTransactionCheck": "true", "msgId": "u", "transactionId": "u"}
        self.assertEqual(end, wanted)


class Pipes(unittest.TestCase):
    """A broker that the client runs: it is asked over standard input and output."""

    command = "pipe:" + " ".join(shlex.quote(word) for word in (sys.executable, fake.__file__))

    def setUp(self):
        self.kept = os.environ.get("PYTHONPATH")
        os.environ["PYTHONPATH"] = os.pathsep.join(path for path in sys.path if path)

    def tearDown(self):
        os.environ.pop("PYTHONPATH")
        if self.kept is not None:
            os.environ["PYTHONPATH"] = self.kept

    def test_replies_and_check_backs_come_and_the_broker_ends_with_the_connection(self):
        heard = []
        connection = Connection(self.command, timeout=20)
        connection.on_request(39, heard.append)
        self.assertTrue(connection.is_pipe)
        self.assertEqual(connection.request(3, {"a": "b"}, b"body").fields, {"a": "b"})
        self.assertEqual(connection.request(1, {}).code, 0)
        self.assertEqual([Check.of(request).message_id for request in heard], ["7F00000100002A9F00000000000000B2"])
        run = connection._child._run
        connection.close()
        self.assertEqual(run.returncode, 0)

    def test_a_broker_that_ended_is_run_again(self):
        with Connection(self.command, timeout=20) as connection:
            self.assertRaises(Exception, connection.request, 2, {})
            self.assertEqual(connection.request(3, {}).code, 0)
            self.assertEqual(connection.times_made, 2)

    def test_a_command_that_is_none(self):
        with Connection("pipe:/no/such/program", timeout=0.3) as connection:
            self.assertRaisesRegex(BrokerUnavailable, "No such file", connection.request, 3, {})
        self.assertRaises(ValueError, Connection, "pipe:")


if __name__ == "__main__":
    unittest.main()
