"""Connections: to nobody, to a port that speaks something else, to a broker that is mute, cut off, or comes again."""
import socket
import threading
import time
import unittest

from fake import Broker, Port, Speaker, reply, until
from mq_client import (BrokerUnavailable, Connection, ConnectionClosed, ConnectionLost, Form, ProtocolError,
                       RequestTimeout)
from mq_client.connection import parse_address
from mq_client.frame import Frame


def echo(request):
    return reply(request, {"said": request.fields.get("say", "")})


class Connections(unittest.TestCase):
    def ends(self, seconds, kind, pattern, call):
        """The call raises this within so many seconds."""
        began = time.monotonic()
        with self.assertRaisesRegex(kind, pattern):
            call()
        self.assertLess(time.monotonic() - began, seconds)

    def test_addresses(self):
        self.assertEqual(parse_address("a.b:1"), ("a.b", 1))
        for bad in ("", "a", "a:", ":1", "a:x", "a:0", "a:65536", "a:-1"):
            with self.assertRaises(ValueError, msg=bad):
                parse_address(bad)

    def test_replies_find_their_requests_in_any_order(self):
        held = []

        def in_pairs(request):
            held.append(request)
            return None
        with Broker({1: in_pairs}) as broker, Connection(broker.address) as connection:
            futures = [connection.request_async(1, {"say": str(k)}) for k in range(50)]
            self.assertTrue(until(lambda: len(held) == 50))
            for request in reversed(held):
                broker.say(echo(request))
            self.assertEqual([future.result(3).fields["said"] for future in futures], [str(k) for k in range(50)])

    def test_many_threads_ask_at_once_in_both_forms(self):
        for form in Form:
            with Broker({1: echo}) as broker, Connection(broker.address, form=form) as connection:
                faults = []

                def ask(name):
                    for k in range(50):
                        said = connection.request(1, {"say": f"{name} {k}"}).fields["said"]
                        if said != f"{name} {k}":
                            faults.append(said)
                threads = [threading.Thread(target=ask, args=(k,)) for k in range(8)]
                for thread in threads:
                    thread.start()
                for thread in threads:
                    thread.join()
                self.assertEqual((faults, connection.times_made), ([], 1))

    def test_nobody_listens(self):
        with Port() as port:
            address = port.address
        with Connection(address, timeout=0.4) as connection:
            self.ends(3, BrokerUnavailable, "no broker at .*refused", lambda: connection.request(1, {}))
            self.ends(3, BrokerUnavailable, "refused", lambda: connection.request_async(1, {}))

    def test_a_peer_that_says_nothing(self):
        with Port() as port, Connection(port.address, timeout=0.4) as connection:
            self.ends(3, RequestTimeout, "didn't reply", lambda: connection.request(1, {}))
        with Port() as port, Connection(port.address, timeout=0.4) as connection:
            future = connection.request_async(1, {})
            self.ends(3, RequestTimeout, "didn't reply", lambda: future.result(3))
            late = connection.request_async(1, {})
            self.ends(3, (RequestTimeout, ConnectionLost), "didn't reply|said nothing", lambda: late.result(3))

    def test_a_peer_that_is_mute_is_left_for_a_new_connection(self):
        mute = threading.Event()
        with Broker({1: lambda request: None if mute.is_set() else echo(request)}) as broker, \
                Connection(broker.address, timeout=0.3) as connection:
            connection.request(1, {})
            mute.set()
            self.ends(3, RequestTimeout, "", lambda: connection.request(1, {}))
            mute.clear()
            time.sleep(0.2)
            connection.request(1, {})
            self.assertEqual(connection.times_made, 2)

    def test_a_peer_that_speaks_something_else(self):
        for said in (b"HTTP/1.1 400 Bad Request\r\nConnection: close\r\n\r\n", b"\0\0\0\x10\0\0\0\x0cnot a header"):
            for ends in (True, False):
                with Speaker(said, ends) as port, Connection(port.address, timeout=2) as connection:
                    self.ends(3, ProtocolError, "protocol|header", lambda: connection.request(1, {}))

    def test_a_reply_that_is_cut(self):
        whole = Frame(0, 1, {}, b"x" * 100, 1).encode()
        for size in (1, 4, 20, len(whole) - 1):
            with Speaker(whole[:size]) as port, Connection(port.address, timeout=2) as connection:
                self.ends(3, ConnectionLost, "in the middle of a reply", lambda: connection.request(1, {}))
        with Speaker(whole[:20], ends=False) as port, Connection(port.address, timeout=0.4) as connection:
            self.ends(3, RequestTimeout, "", lambda: connection.request(1, {}))

    def test_a_connection_that_ends_before_the_reply(self):
        with Speaker(b"") as port, Connection(port.address, timeout=2) as connection:
            self.ends(3, ConnectionLost, "ended the connection$", lambda: connection.request(1, {}))

    def test_a_peer_that_reads_nothing_ends_a_long_request_in_time(self):
        with Port() as port, Connection(port.address, timeout=0.5) as connection:
            self.ends(3, (ConnectionLost, RequestTimeout), "", lambda: connection.request(1, {}, bytes(16_000_000)))

    def test_what_may_be_repeated_is_asked_again_on_a_new_connection_and_nothing_else(self):
        times = []

        def once_lost(request):
            times.append(request)
            if len(times) == 1:
                broker.drop()
                return None
            return echo(request)
        with Broker({1: once_lost}) as broker, Connection(broker.address) as connection:
            self.assertEqual(connection.request(1, {"say": "a"}, is_repeatable=True).fields["said"], "a")
            self.assertEqual((len(times), connection.times_made), (2, 2))
            times.clear()
            with self.assertRaises(ConnectionLost):
                connection.request(1, {})
            self.assertEqual(len(times), 1)

    def test_a_broker_that_comes_up_later_is_found(self):
        with Port() as port:
            address = port.address

        def come():
            time.sleep(0.5)
            door = socket.create_server(parse_address(address))
            stream, _ = door.accept()
            stream.recv(65536)
            stream.sendall(Frame(0, 1, {}, b"", 1).encode())
            stream.recv(1)  # the end
            for one in (door, stream):
                one.close()
        thread = threading.Thread(target=come)
        thread.start()
        with Connection(address) as connection:
            self.assertEqual(connection.request(1, {}).code, 0)
        thread.join()

    def test_tries_are_spaced_out(self):
        with Speaker(b"") as port, Connection(port.address, timeout=1.0) as connection:
            with self.assertRaises((ConnectionLost, BrokerUnavailable, RequestTimeout)):
                connection.request(1, {}, is_repeatable=True)
            self.assertLess(len(port.streams), 12)

    def test_a_close_ends_what_waits_and_nothing_is_asked_after_it(self):
        with Port() as port:
            connection = Connection(port.address, timeout=30)
            future = connection.request_async(1, {})
            connection.close()
            self.ends(3, ConnectionLost, "this program closed", lambda: future.result(3))
            self.ends(3, ConnectionClosed, "closed by this program", lambda: connection.request(1, {}))

    def test_one_way_requests_are_not_answered(self):
        with Broker({1: echo}) as broker, Connection(broker.address) as connection:
            connection.request_one_way(1, {"say": "a"})
            self.assertEqual(connection.request(1, {"say": "b"}).fields["said"], "b")
            self.assertEqual([request.flag for request in broker.of(1)], [2, 0])

    def test_requests_of_the_broker_are_handled_and_a_failing_handler_ends_nothing(self):
        heard = []

        def handle(frame):
            heard.append(frame)
            raise RuntimeError("as planned")
        with Broker({1: echo}) as broker, Connection(broker.address) as connection:
            connection.on_request(39, handle)
            connection.request(1, {})
            with self.assertLogs("mq_client", "ERROR"):
                broker.say(Frame(39, 5, {"a": "b"}, b"x", 2))
                self.assertTrue(until(lambda: len(heard) == 1))
                self.assertEqual(connection.request(1, {"say": "on"}).fields["said"], "on")
            self.assertEqual((heard[0].opaque, heard[0].fields, heard[0].body), (5, {"a": "b"}, b"x"))


if __name__ == "__main__":
    unittest.main()
