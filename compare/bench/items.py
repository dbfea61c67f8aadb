"""The items that both sides repeat, and how our program is asked for one."""
import struct


def input_of(players, payload):
    """The bytes of an Input: 31, 5 for each status, and the payload."""
    statuses = b"".join(struct.pack("<Bi", 0, 100 + player) for player in range(players))
    head = struct.pack("<HIQ", 4660, 2, players) + statuses
    return head + struct.pack("<BiiQ", 0, 1000, 900, payload) + bytes(range(payload))


class Item:
    def __init__(self, label, name, number, count, datagram=b""):
        self.label, self.name, self.number, self.count, self.datagram = label, name, number, count, datagram

    def record(self, count):
        """What our program reads: the item, the repetitions, and a datagram after its length."""
        return struct.pack("<BIB", self.number, count, len(self.datagram)) + self.datagram


SMALL, LARGE = input_of(2, 1), input_of(4, 64)
SEND = Item("send_input, the fourth that waits", "send-input", 4, 20_000)
PAIR = Item("send_input, then message(InputAck) of the oldest", "input-ack", 5, 20_000)
KEEP_ALIVE = Item("message(KeepAlive)", "keep-alive", 6, 20_000)

CODEC = [
    Item("codec, reads an Input of 42 bytes", "read-42", 0, 1_000_000, SMALL),
    Item("codec, writes an Input of 42 bytes", "write-42", 1, 1_000_000, SMALL),
    Item("codec, reads an Input of 115 bytes", "read-115", 0, 1_000_000, LARGE),
    Item("codec, writes an Input of 115 bytes", "write-115", 1, 1_000_000, LARGE),
]
CALLS = [
    Item("message(Input of one frame), 2 players, S = 1", "input-2x1", 2, 20_000),
    Item("message(Input of one frame), 4 players, S = 16", "input-4x16", 3, 20_000),
    SEND,
    PAIR,
    KEEP_ALIVE,
    Item("act, nothing due", "act", 7, 20_000),
    Item("exchange of 10,000 frames, one frame", "exchange", 8, 10_000),
]
