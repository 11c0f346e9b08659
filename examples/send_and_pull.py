#!/usr/bin/env python3
"""Sends messages to a broker and pulls them back: examples/send_and_pull.py [HOST:PORT [TEXT..]]."""
import os
import sys
import time

sys.path.insert(0, os.path.join(os.path.dirname(os.path.abspath(__file__)), "..", "clients", "python"))

from mq_client import Admin, ClientError, Connection, Producer  # noqa: E402

TOPIC, QUEUE = "Greetings", 0


def pull(admin, number):
    """The text of the message with this number, and the number to continue at."""
    for _ in range(100):
        found = admin.pull(TOPIC, QUEUE, number, most=1)
        if found.messages:
            return found.messages[0].text(), found.next_offset
        time.sleep(0.01)  # what was answered may be seen a moment later
    sys.exit(f"nothing is pulled from number {number} on")


def main(address, texts):
    with Connection(address) as connection:
        producer, admin, numbers = Producer(connection, "makers"), Admin(connection), []
        for text in texts:
            numbers.append(producer.send(TOPIC, text, queue=QUEUE).queue_offset)
            print(f"sent {text!r}: it is on the disk, as number {numbers[-1]} of its queue")
        for number in numbers:
            text, following = pull(admin, number)
            print(f"pulled {text!r}, continue at number {following}")


try:
    main(sys.argv[1] if len(sys.argv) > 1 else "127.0.0.1:10911", sys.argv[2:] or ["hello", "world"])
except ClientError as fault:
    sys.exit(str(fault))
