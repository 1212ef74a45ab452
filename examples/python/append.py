"""Appends records to the log of a split: the words are the log, and KEY=TEXT for each record, whose value is the string TEXT."""
import sys


def varint(number):
    return bytes([number]) if number < 128 else bytes([number & 127 | 128]) + varint(number >> 7)


def field(number, payload):
    return bytes([number << 3 | 2]) + varint(len(payload)) + payload


with open(sys.argv[1], "ab") as log:
    for word in sys.argv[2:]:
        key, _, text = word.encode().partition(b"=")
        message = field(1, key) + field(2, field(1, text))
        log.write(varint(len(message)) + message)
