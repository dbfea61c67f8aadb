"""The layout of scripts and answers (docs/REPLAY.md): a script's records, and which field of which answer stands at a byte of the answers."""

import struct

HEADER, RECORD = 8, 64
MODE, WHOLE, DIGEST = 5, 0, 1
NEW, POLL, NETWORK_STATS, PEER_CONNECT_STATUS, TAKE_EVENTS, TAKE_MESSAGES, GETTERS, BUFFER, ADVANCE, FRAMES_BEHIND = 0, 5, 10, 11, 12, 13, 14, 15, 16, 17
SESSION = 2
INPUT_SIZE = 28  # its place in a setup
OBJECTS = "endpoint A", "endpoint B", "the spectator session"
CALLS = (
    "new synchronize datagram carry message act send_input disconnect send_checksum_report update_local_frame_advantage network_stats "
    "peer_connect_status take_events take_messages getters buffer advance frames_behind"
).split()
EVENTS = "Synchronizing Synchronized Input Disconnected NetworkInterrupted NetworkResumed".split()
CLOCKS = "quality report, input received, last send, last request, last receive, shutdown time, epoch clock at the start, round trip time".split(", ")


def records(script):
    """Each record's call, object and payload part."""
    at = HEADER
    while at < len(script):
        call, object, length = struct.unpack_from("<BBxxI", script, at)
        payload = at + RECORD
        at = payload + length
        yield call, object, script[payload:at]


def call_name(call, object):
    return "poll" if (call, object) == (POLL, SESSION) else CALLS[call]


class Walk:
    """Goes through answers and notes each field: where it begins, its layout and its name."""

    def __init__(self, answers):
        self.answers, self.at, self.fields, self.prefix = answers, 0, [], []

    def take(self, name, layout):
        values = struct.unpack_from("<" + layout, self.answers, self.at)
        self.fields.append((self.at, layout, ": ".join([*self.prefix, name])))
        self.at += struct.calcsize("<" + layout)
        return values[0] if values else None

    def each(self, count, name, one, *given):
        for k in range(count):
            self.prefix.append(f"{name} {k}")
            one(*given)
            self.prefix.pop()

    def counted(self, plural, name, one, *given):
        count = self.take(f"count of {plural}", "I")
        self.each(count, name, one, *given)
        return count

    def part(self, name):
        self.take(f"{name}: bytes", f"{self.take(f'{name}: length', 'I')}s")

    def status(self):
        self.take("disconnected", "B")
        self.take("last frame", "i")

    def input(self, width):
        self.take("frame", "i")
        self.take("bytes", f"{width}s")

    def checksum(self):
        self.take("frame", "i")
        self.take("checksum", "16s")

    def event(self, addressed):
        tag = self.take("tag", "B")
        self.prefix.append(EVENTS[tag])
        if addressed:
            self.take("address", "I")
        if EVENTS[tag] == "Synchronizing":
            self.take("total", "I")
            self.take("count", "I")
        elif EVENTS[tag] == "Input":
            self.take("frame", "i")
            self.take("handle", "I")
            self.take("bytes", f"{self.take('S', 'B')}s")
        elif EVENTS[tag] == "NetworkInterrupted":
            self.take("disconnect_timeout", "Q")
        self.prefix.pop()

    def events(self, addressed):
        self.counted("events", "event", self.event, addressed)

    def frame(self, size):
        self.each(self.take("number of players", "B"), "player", self.synced, size)

    def synced(self, size):
        self.take("input", f"{size}s")
        self.take("status", "B")

    def given(self, call, session):
        if call == TAKE_EVENTS:
            self.events(session)
        elif call == TAKE_MESSAGES or (call == POLL and session):
            self.part("messages")
        elif call == NETWORK_STATS:
            for name, layout in ("ping", "Q"), ("send_queue_len", "I"), ("local_frames_behind", "i"), ("remote_frames_behind", "i"):
                self.take(name, layout)
        elif call == PEER_CONNECT_STATUS:
            self.status()
        elif call == GETTERS and session:
            for name, layout in ("Running", "B"), ("current frame", "i"), ("players", "I"):
                self.take(name, layout)
        elif call == GETTERS:
            self.counted("handles", "handle", self.take, "number", "I")
            for name, layout in ("is_synchronized", "B"), ("is_running", "B"), ("is_handling_message", "B"), ("newest frame", "i"):
                self.take(name, layout)
        elif call == BUFFER:
            self.take("CRC-32 of the array", "I")
        elif call == ADVANCE:
            frames = self.take("number of frames", "I")
            self.each(frames, "frame", self.frame, self.take("S", "B"))
        elif call == FRAMES_BEHIND:
            self.take("frames", "I")

    def endpoint(self):
        if not self.take("phase", "B"):
            return
        self.take("players", "I")
        handles = self.counted("handles", "handle", self.take, "number", "I")
        size = self.take("input size", "I")
        sending = self.take("sending width", "I")
        for name, layout in (
            ("max_prediction", "I"),
            ("fps", "I"),
            ("disconnect timeout", "Q"),
            ("disconnect notify start", "Q"),
            ("peer number", "I"),
            ("own magic", "H"),
            ("desync detection", "H"),
            ("its interval", "I"),
            ("replies still to come", "I"),
        ):
            self.take(name, layout)
        self.counted("outstanding nonces", "nonce", self.take, "number", "I")
        for name, layout in ("remote magic", "H"), ("interruption announced", "B"), ("disconnect announced", "B"):
            self.take(name, layout)
        for name in CLOCKS:
            self.take(name, "Q")
        self.take("local advantage", "i")
        self.take("remote advantage", "i")
        self.counted("peer statuses", "peer status", self.status)
        self.counted("pending inputs", "pending input", self.input, sending)
        self.prefix.append("last acknowledged input")
        self.input(sending)
        self.prefix.pop()
        self.counted("the history", "received input", self.input, handles * size)
        self.counted("checksums", "checksum", self.checksum)
        self.events(False)
        self.part("queued messages")

    def session(self, size):
        if not self.take("state", "B"):
            return
        players = self.take("players", "I")
        for name, layout in ("max_frames_behind", "I"), ("catchup_speed", "I"), ("current frame", "i"), ("newest received frame", "i"):
            self.take(name, layout)
        self.each(self.take("slots", "I"), "slot", self.each, players, "player", self.input, size)
        self.counted("the copied statuses", "copied status", self.status)
        self.prefix.append("session")
        self.events(True)
        self.prefix[-1] = "its endpoint"
        self.endpoint()
        self.prefix.pop()


def named(script, answers):
    """The fields of the answers, each with the record that it belongs to: (record's number, call, object, place, layout, name)."""
    walk, size = Walk(answers), 0
    for number, (call, object, payload) in enumerate(records(script)):
        walk.fields = []
        walk.take("call", "B")
        walk.take("object", "B")
        answer = walk.take("answer", "B")
        walk.take("zero", "B")
        session = object == SESSION
        if session and call == NEW and answer == 0:
            (size,) = struct.unpack_from("<I", payload, INPUT_SIZE)
        if script[MODE] == DIGEST:
            walk.take("length of the body", "I")
            walk.take("CRC-32 of the body", "I")
        else:
            walk.prefix = ["what it gave"]
            if answer == 0:
                walk.given(call, session)
            walk.prefix = ["state"]
            if session:
                walk.session(size)
            else:
                walk.endpoint()
            walk.prefix = []
        for place, layout, name in walk.fields:
            yield number, call, object, place, layout, name
