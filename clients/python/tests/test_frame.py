"""Frames and records: what is written reads back, the documented bytes are read, and others are refused."""
import struct
import unittest

from mq_client.errors import ProtocolError
from mq_client.frame import Form, Frame, FrameReader, decode
from mq_client.message import Outgoing, message_id, place_of, property_text, read_properties, read_record, read_records

# the two documented samples: a binary header without a body, and the record of `hi`
SAMPLE = bytes.fromhex("00000021 01 00001D 000A 00 018B 00000007 00000000 00000000 00000008 0001 65 00000001 30")
RECORD = bytes.fromhex(
    "0000006C DAA320A7 58932AAC 00000000 00000000 0000000000000000 0000000000000000 00000000 00000000000003E8"
    "7F00000100000000 00000000000007D0 7F00000100002A9F 00000000 0000000000000000 00000002 6869 01 54 000E 5345414C01"
    "3232464539303934 02")


class Frames(unittest.TestCase):
    def test_what_is_written_reads_back_in_both_forms(self):
        for form in Form:
            for body in (b"", b"hi", bytes(range(256)) * 40):
                fields = {"topic": "T\u00e4", "e": "", "properties": "a\x01b\x02"}
                frame = Frame(-5, 2 ** 31 - 1, fields, body, 3, "no \u4f60", form)
                self.assertEqual(decode(frame.encode()), frame)
                self.assertTrue(frame.is_reply and frame.is_one_way)

    def test_the_documented_binary_frame_is_read(self):
        self.assertEqual(decode(SAMPLE), Frame(10, 7, {"e": "0"}, form=Form.BINARY))

    def test_a_reply_of_the_broker_is_read(self):
        header = b'{"code":3,"extFields":{},"flag":1,"language":"OTHER","opaque":9,"remark":"code 999","version":0}'
        data = struct.pack(">II", 4 + len(header), len(header)) + header
        self.assertEqual(decode(data), Frame(3, 9, {}, b"", 1, "code 999"))

    def test_frames_come_in_pieces_of_any_size(self):
        frames = [Frame(10, k, {"a": "x" * k}, b"y" * (k * 7), form=Form(k % 2)) for k in range(20)]
        stream = b"".join(frame.encode() for frame in frames)
        for size in (1, 2, 3, 7, 64, len(stream)):
            reader, found = FrameReader(), []
            for at in range(0, len(stream), size):
                found += reader.feed(stream[at:at + size])
            self.assertEqual(found, frames)
            self.assertEqual(reader.missing, "")

    def test_what_is_missing_of_a_cut_frame_is_said(self):
        reader = FrameReader()
        self.assertEqual(reader.feed(SAMPLE + SAMPLE[:2]), [decode(SAMPLE)])
        self.assertEqual(reader.missing, "2 of the 4 bytes of its length")
        reader.feed(SAMPLE[2:20])
        self.assertEqual(reader.missing, "20 of its 37 bytes")

    def test_bytes_of_other_protocols_are_refused_with_what_they_were(self):
        for said in (b"HTTP/1.1 400 Bad Request\r\n", b"SSH-2.0-OpenSSH_9.6\r\n", b"-ERR unknown\r\n", b"\0\0\0\3"):
            with self.assertRaisesRegex(ProtocolError, "doesn't speak"):
                FrameReader().feed(said)

    def test_broken_headers_are_refused(self):
        texts = [b"", b"{", b"[]", b"{}", b'{"code":"1","opaque":2}', b'{"code":1,"opaque":2,"extFields":{"a":1}}',
                 b'{"code":true,"opaque":2}', b"[" * 100000]
        rows = [struct.pack(">IB", 4 + len(text), 0) + len(text).to_bytes(3, "big") + text for text in texts]
        rows += [SAMPLE[:8 + cut] + SAMPLE[8 + cut + 1:] for cut in range(0, 29, 3)]  # a byte of the header is left out
        rows += [b"\0\0\0\x21\x02" + SAMPLE[5:], b"\0\0\0\x21\x01\0\0\xff" + SAMPLE[8:], b"\0\0\0\4\0\0\0\1"]
        for row in rows:
            data = struct.pack(">I", len(row) - 4) + row[4:]
            with self.assertRaises(ProtocolError, msg=data):
                decode(data)

    def test_a_frame_that_nobody_could_read_is_not_made(self):
        for form in Form:
            for frame in (Frame(10, 1, {}, bytes(16_777_216), form=form), Frame(10, 1, {"topic": "\ud800"}, form=form)):
                with self.assertRaises(ValueError):
                    frame.encode()


class Records(unittest.TestCase):
    def test_the_documented_record_is_read(self):
        message = read_record(RECORD)
        self.assertEqual((message.topic, message.body, message.queue, message.queue_offset), ("T", b"hi", 0, 0))
        self.assertEqual((message.born_time, message.store_time), (1000, 2000))
        self.assertEqual((message.message_id, message.properties), ("7F00000100002A9F0000000000000000", {}))

    def test_several_stand_one_after_another(self):
        self.assertEqual([one.body for one in read_records(RECORD * 3)], [b"hi"] * 3)
        self.assertEqual(read_records(b""), [])

    def test_cut_and_damaged_ones_are_refused(self):
        for cut in range(1, len(RECORD)):
            with self.assertRaises(ProtocolError):
                read_records(RECORD + RECORD[:cut])
        for at in (3, 4, 7, 8, 87, 88, 89, 90, 93):
            with self.assertRaises(ProtocolError, msg=at):
                read_records(RECORD[:at] + bytes([RECORD[at] ^ 1]) + RECORD[at + 1:])

    def test_properties_read_back_and_broken_ones_are_not_sent(self):
        all_of_it = Outgoing("x", "TagA", ["k1", "k2"], {"UNIQ_KEY": "u", "a": ""}).all_properties({"DELAY": "3"})
        self.assertEqual(all_of_it, {"UNIQ_KEY": "u", "a": "", "TAGS": "TagA", "KEYS": "k1 k2", "DELAY": "3"})
        self.assertEqual(read_properties(property_text(all_of_it) + "SEAL\x0100000000\x02"), all_of_it)
        for bad in ({"": "x"}, {"a\x01": "x"}, {"a": "x\x02"}):
            with self.assertRaises(ValueError):
                property_text(bad)

    def test_each_message_gets_a_unique_key_of_its_own(self):
        keys = {Outgoing("x").all_properties({})["UNIQ_KEY"] for _ in range(100)}
        self.assertEqual((len(keys), {len(key) for key in keys}), (100, {32}))

    def test_ids_read_back(self):
        self.assertEqual(place_of(message_id(b"\x7f\0\0\1\0\0\x2a\x9f", 4711)), 4711)
        for bad in ("", "7f00000100002a9f0000000000000000", "7F00000100002A9F000000000000000", "x" * 32):
            with self.assertRaises(ValueError):
                place_of(bad)


if __name__ == "__main__":
    unittest.main()
