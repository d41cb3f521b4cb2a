#!/usr/bin/env python3
"""What the card must print, by the paper's rules; it shares nothing with the proved code.

model.py demo                       the demo, for crates/card/stdout
model.py TABLE SCRIPT [AFTER]       what a replay writes to standard output and to standard error"""
import sys

import make_table

STATES = ["CONFIG_UNLOCKED", "CONFIG_LOCKED", "RUN", "ERROR"]
ANY = (0, 1, 2, 3)
REQUESTS = {
    0x81: ("GET_TDISP_VERSION", 16, ANY), 0x82: ("GET_TDISP_CAPABILITIES", 20, ANY), 0x83: ("LOCK_INTERFACE", 36, (0,)),
    0x84: ("GET_DEVICE_INTERFACE_REPORT", 20, (1, 2)), 0x85: ("GET_DEVICE_INTERFACE_STATE", 16, ANY),
    0x86: ("START_INTERFACE", 48, (1,)), 0x87: ("STOP_INTERFACE", 16, ANY),
}
REPLIES = {
    1: "TDISP_VERSION", 2: "TDISP_CAPABILITIES", 3: "LOCK_INTERFACE_RESPONSE", 4: "DEVICE_INTERFACE_REPORT",
    5: "DEVICE_INTERFACE_STATE", 6: "START_INTERFACE_RESPONSE", 7: "STOP_INTERFACE_RESPONSE", 0x7F: "TDISP_ERROR",
}
ERRORS = {
    0x01: "INVALID_REQUEST", 0x04: "INVALID_INTERFACE_STATE", 0x07: "UNSUPPORTED_REQUEST", 0x41: "VERSION_MISMATCH",
    0x101: "INVALID_INTERFACE", 0x102: "INVALID_NONCE", 0x103: "INSUFFICIENT_ENTROPY", 0x104: "INVALID_DEVICE_CONFIGURATION",
}
REFUSALS = {
    1: "the table's length", 2: "a record breaks its rules", 3: "two equal FUNCTION_IDs", 4: "reply buffer under 256 bytes",
    5: "request under 16 bytes", 6: "stream map or nonce not 32 bytes", 7: "no record's interface",
}
PAGES_END = 2**52
MOST_REPORT = 200


def num(s, at, n):
    return int.from_bytes(s[at : at + n], "little")


def identity(i):
    valid = i >> 24 & 1
    return (i & 0xFFFF, valid, (i >> 16 & 0xFF) if valid else 0)


def ranges(r):
    return [(num(r, 72 + 16 * k, 8), num(r, 80 + 16 * k, 4), num(r, 84 + 16 * k, 2), num(r, 86 + 16 * k, 2)) for k in range(r[10])]


def shifts(r, offset):
    """Whether an offset meets the lock's rule."""
    return offset % 4096 == 0 and all(0 <= f + offset // 4096 and f + offset // 4096 + p <= PAGES_END for f, p, _, _ in ranges(r))


def offset_at(s, at):
    return int.from_bytes(s[at : at + 8], "little", signed=True)


def record_ok(r):
    i, state, n, length = num(r, 0, 4), r[4], r[10], num(r, 200, 4)
    if i >> 25 or (not i >> 24 & 1 and i >> 16 & 0xFF) or state > 3 or n > 8 or length > 52:
        return False
    if r[5] != (state == 1) or (state != 1 and any(r[40:72])) or r[11] or any(r[18:20]) or any(r[32:40]):
        return False
    if num(r, 12, 2) & ~0x1E or any(r[72 + 16 * n : 200]) or any(r[204 + length : 256]):
        return False
    if any(p < 1 or f + p > PAGES_END or a >> 4 for f, p, a, _ in ranges(r)):
        return False
    low = [k for _, _, _, k in ranges(r) if k <= 7]
    if low != sorted(low):
        return False
    if state in (0, 3):
        return not any(r[6:10]) and not any(r[24:32])
    return not num(r, 6, 2) & ~5 and shifts(r, offset_at(r, 24))


class Card:
    def __init__(self, table):
        self.table = bytearray(table)

    def records(self):
        return [memoryview(self.table)[at : at + 256] for at in range(0, len(self.table) // 256 * 256, 256)]

    def judge(self):
        if not 256 <= len(self.table) <= 16384 or len(self.table) % 256:
            return 1
        if not all(record_ok(bytes(r)) for r in self.records()):
            return 2
        ids = [identity(num(r, 0, 4)) for r in self.records()]
        return 3 if len(set(ids)) < len(ids) else 0

    def find(self, i):
        return next((r for r in self.records() if identity(num(r, 0, 4)) == identity(i)), None)


def clear(r, state):
    r[4], r[5] = state, 0
    for a, b in ((6, 10), (24, 32), (40, 72)):
        r[a:b] = bytes(b - a)


def report(r):
    flags, shift = num(r, 6, 2), offset_at(bytes(r), 24) // 4096
    out = (num(r, 12, 2) | flags & 1).to_bytes(2, "little") + b"\0\0"
    out += (num(r, 14, 2) if flags & 4 else 0).to_bytes(2, "little") + bytes(r[16:18]) + bytes(r[20:24]) + r[10].to_bytes(4, "little")
    for f, p, a, k in ranges(r):
        a = a if flags & 4 else a & ~3
        out += (f + shift).to_bytes(8, "little") + p.to_bytes(4, "little") + a.to_bytes(2, "little") + k.to_bytes(2, "little")
    length = num(r, 200, 4)
    return out + length.to_bytes(4, "little") + bytes(r[204 : 204 + length])


def respond(card, q, s):
    """The number and the reply of a request."""
    number = card.judge()
    if not number:
        number = 4 if s["reply"] < 256 else 5 if len(q) < 16 else 6 if len(s["streams"]) != 32 or len(s["nonce"]) != 32 else 0
    if number:
        return number, b""

    def reply(kind, payload=b""):
        return 0, bytes([0x10, kind, 0, 0]) + q[4:16] + payload

    def error(code, data=0):
        return reply(0x7F, code.to_bytes(4, "little") + data.to_bytes(4, "little"))

    if q[0] != 0x10:
        return error(0x41)
    if q[1] not in REQUESTS:
        return error(0x07, q[1])
    _, length, states = REQUESTS[q[1]]
    if len(q) != length:
        return error(0x01)
    r = card.find(num(q, 4, 4))
    if r is None:
        return error(0x101)
    if r[4] not in states:
        return error(0x04)
    if q[1] == 0x81:
        return reply(1, b"\x01\x10")
    if q[1] == 0x82:
        return reply(2, bytes(4) + b"\xfe" + bytes(15) + b"\x05\0" + bytes(3) + b"\x40\x01\x01")
    if q[1] == 0x83:
        flags, stream, offset = num(q, 16, 2), q[18], offset_at(q, 20)
        if flags & 26 or not shifts(bytes(r), offset):
            return error(0x01)
        if not s["streams"][stream // 8] >> stream % 8 & 1:
            return error(0x104)
        if not s["ready"]:
            return error(0x103)
        r[4], r[5], r[8], r[9] = 1, 1, stream, s["session"]
        r[6:8] = (flags & 5).to_bytes(2, "little")
        r[24:32], r[40:72] = q[20:28], s["nonce"]
        return reply(3, s["nonce"])
    if q[1] == 0x84:
        whole, offset, length = report(r), num(q, 16, 2), num(q, 18, 2)
        if offset >= len(whole):
            return error(0x01)
        portion = whole[offset : offset + min(length, 128)]
        return reply(4, len(portion).to_bytes(2, "little") + (len(whole) - offset - len(portion)).to_bytes(2, "little") + portion)
    if q[1] == 0x85:
        return reply(5, bytes([r[4]]))
    if q[1] == 0x86:
        if bytes(r[40:72]) != q[16:48]:
            return error(0x102)
        r[4], r[5] = 2, 0
        r[40:72] = bytes(32)
        return reply(6)
    clear(r, 0)
    return reply(7)


class Collector:
    """02, 2/12: the bytes held so far, for an interface; `total` is that of the first reply taken."""

    def __init__(self, i):
        self.i, self.held, self.total = i, b"", None

    def take(self, reply):
        """Takes a reply; the name by which it is refused, or None."""
        if len(reply) < 20 or reply[0] != 0x10 or reply[1] != 0x04:
            return "not a report reply"
        if identity(num(reply, 4, 4)) != identity(self.i):
            return "other interface"
        portion, remainder = num(reply, 16, 2), num(reply, 18, 2)
        if len(reply) != 20 + portion:
            return "length not as the portion says"
        total = len(self.held) + portion + remainder
        if self.total not in (None, total):
            return "total different from before"
        if total > MOST_REPORT:
            return "total over 200"
        self.held, self.total = self.held + reply[20:], total
        return None


def move(records):
    moved = [r for r in records if r[4] in (1, 2)]
    for r in moved:
        clear(r, 3)
    return len(moved)


def write(card, i, c):
    r = card.find(i)
    if r is None:
        return 7, 0
    if c in (1, 3, 9, 11, 12, 13, 14, 15):
        return 0, 0
    if c == 2 and not num(r, 6, 2) & 4:
        return 0, 0
    return 0, move(card.records() if c == 10 else [r])


def hexes(s):
    return "".join(" %02x" % b for b in s)


def field(name, s, a, b, low=False):
    if not low:
        return "    %s:%s\n" % (name, hexes(s[a:b]))
    return "    %s, low byte first:%s = %0*xh\n" % (name, hexes(s[a:b]), 2 * (b - a), num(s, a, b - a))


def fields(s):
    out = "  reply %s:%s\n" % (REPLIES[s[1]], hexes(s))
    out += field("version", s, 0, 1) + field("type", s, 1, 2) + field("reserved", s, 2, 4)
    out += field("FUNCTION_ID", s, 4, 8, True) + field("reserved", s, 8, 16)
    if s[1] == 1:
        out += field("VERSION_NUM_COUNT", s, 16, 17) + field("VERSION_NUM_ENTRY", s, 17, 18)
    if s[1] == 2:
        out += field("DSM_CAPS", s, 16, 20, True) + field("REQ_MSGS_SUPPORTED, bit n is 80h + n", s, 20, 36)
        out += field("LOCK_INTERFACE_FLAGS_SUPPORTED", s, 36, 38, True) + field("reserved", s, 38, 41)
        out += field("DEV_ADDR_WIDTH", s, 41, 42) + field("NUM_REQ_THIS", s, 42, 43) + field("NUM_REQ_ALL", s, 43, 44)
    if s[1] == 3:
        out += field("START_INTERFACE_NONCE", s, 16, 48)
    if s[1] == 4:
        out += field("PORTION_LENGTH", s, 16, 18, True) + field("REMAINDER_LENGTH", s, 18, 20, True) + field("REPORT_BYTES", s, 20, len(s))
    if s[1] == 5:
        out += "    TDI_STATE:%s = %s\n" % (hexes(s[16:17]), STATES[s[16]])
    if s[1] == 0x7F:
        out += field("ERROR_CODE", s, 16, 20, True)[:-1] + " %s\n" % ERRORS[num(s, 16, 4)] + field("ERROR_DATA", s, 20, 24, True)
    return out


def report_fields(s):
    """A whole report, by 01's "Report"; names by 001's Table 11-15."""

    def inner(name, at, n):
        return "%s%s = %0*xh" % (name, hexes(s[at : at + n]), 2 * n, num(s, at, n))

    out = "  report, %d bytes:%s\n" % (len(s), hexes(s))
    out += field("INTERFACE_INFO", s, 0, 2, True) + field("reserved", s, 2, 4) + field("MSI_X_MESSAGE_CONTROL", s, 4, 6, True)
    out += field("LNR_CONTROL", s, 6, 8, True) + field("TPH_CONTROL", s, 8, 12, True) + field("MMIO_RANGE_COUNT", s, 12, 16, True)
    at = 16
    for k in range(num(s, 12, 4)):
        parts = inner("first page", at, 8), inner("pages", at + 8, 4), inner("attributes", at + 12, 2), inner("range ID", at + 14, 2)
        out += "    MMIO_RANGE %d, low byte first: %s\n" % (k, ", ".join(parts))
        at += 16
    return out + field("DEVICE_SPECIFIC_INFO_LEN", s, at, at + 4, True) + field("DEVICE_SPECIFIC_INFO", s, at + 4, len(s))


def collect(card, s, i, length):
    """The report of an interface in portions; what is printed of it."""
    c, out = Collector(i), "collect %04xh LENGTH %d\n" % (i, length)
    while c.total != len(c.held):
        offset = len(c.held)
        q = b"\x10\x84\0\0" + i.to_bytes(4, "little") + bytes(8) + offset.to_bytes(2, "little") + length.to_bytes(2, "little")
        number, reply = respond(card, q, s)
        out += "  OFFSET %d: " % offset
        if number:
            return out + "no reply\n" + told(number, "length 0") + states(card)
        why = c.take(reply)
        if why:
            return out + "refused by the collector: %s\n" % why + told(0, "length %d" % len(reply)) + fields(reply) + states(card)
        out += "portion %d, remainder %d\n" % (len(c.held) - offset, c.total - len(c.held))
        if len(c.held) == offset:
            return out + "  nothing moved, so no more is asked\n" + states(card)
    return out + report_fields(c.held) + states(card)


def states(card):
    def one(r):
        return " %04xh %s;" % (num(r, 0, 4), STATES[r[4]] if r[4] < 4 else "no state: %d" % r[4])

    return "  states:%s\n" % "".join(map(one, card.records()))


def told(number, what):
    return "  number %d, %s; %s\n" % (number, "refused: " + REFUSALS[number] if number else "served", what)


def call(card, s, kind, *given):
    """Makes a call; what is printed of it."""
    if kind == "request":
        q = given[0]
        number, reply = respond(card, q, s)
        name = REQUESTS[q[1]][0] if len(q) > 1 and q[1] in REQUESTS else "of an unlisted type"
        out = "request %s%d bytes:%s\n" % (name + ", " if len(q) > 1 else "", len(q), hexes(q))
        return out + told(number, "length %d" % len(reply)) + (fields(reply) if reply else "") + states(card)
    if kind == "collect":
        return collect(card, s, *given)
    number, moved = card.judge(), 0
    if kind == "firmware":
        yes = not number and not any(r[4] in (1, 2) and num(r, 6, 2) & 1 for r in card.records())
        return "firmware\n" + told(number, "answer " + ("yes" if yes else "no")) + states(card)
    title = {"register-write": "register-write %04xh class %d", "multicast": "multicast"}.get(kind, kind + " %d") % given
    if not number:
        if kind == "register-write":
            number, moved = write(card, *given)
        elif kind == "multicast":
            moved = move(card.records())
        else:
            moved = move([r for r in card.records() if r[8 if kind == "stream-down" else 9] == given[0]])
    return title + "\n" + told(number, "moved %d" % moved) + states(card)


class Bad(Exception):
    pass


def hex_bytes(text, most):
    out, text = [], text.lstrip(" \t\r")
    while text:
        if len(text) < 2:
            raise Bad("an odd number of hex digits")
        if any(c not in "0123456789abcdefABCDEF" for c in text[:2]):
            raise Bad("no hex digit")
        out.append(int(text[:2], 16))
        text = text[2:].lstrip(" \t\r")
    if len(out) > most:
        raise Bad("too many bytes")
    return bytes(out)


def number_of(text, most):
    if not text:
        raise Bad("something is missing")
    value = 0
    for c in text:
        if c not in "0123456789":
            raise Bad("no decimal digit")
        value = 10 * value + int(c)
        if value > 65535:
            raise Bad("the number is too large")
    if value > most:
        raise Bad("the number is too large")
    return value


def function_id(text):
    value = 0
    for c in text:
        if c not in "0123456789abcdefABCDEF":
            raise Bad("no hex digit")
        value = 16 * value + int(c, 16)
        if value >= 2**32:
            raise Bad("the number is too large")
    return value


def parse(line):
    """A line's word and what it gives, or None."""
    if len(line) > 1024:
        raise Bad("longer than 1024 bytes")
    text = line.split("#")[0].strip(" \t\r")
    if not text:
        return None
    cut = min((text + " ").find(c) for c in " \t\r" if c in text + " ")
    word, rest = text[:cut], text[cut:].lstrip(" \t\r")
    most = {"request": 512, "nonce": 64, "streams": 64}
    if word in most:
        return word, hex_bytes(rest, most[word])
    most = {"register-write": 255, "collect": 65535}
    if word in most:
        if not rest:
            raise Bad("something is missing")
        cut = min((rest + " ").find(c) for c in " \t\r" if c in rest + " ")
        i = function_id(rest[:cut])
        return word, i, number_of(rest[cut:].lstrip(" \t\r"), most[word])
    if word in ("multicast", "firmware"):
        if rest:
            raise Bad("something stands after it")
        return (word,)
    most = {"stream-down": 255, "session-end": 255, "session": 255, "ready": 1, "reply-length": 512}
    if word in most:
        return word, number_of(rest, most[word])
    raise Bad("an unknown word")


def start():
    return {"nonce": bytes(32), "ready": 0, "streams": bytes(32), "session": 0, "reply": 256}


def replay(table, script, after):
    lines = script.decode("latin-1").split("\n")
    if len(script) > 65536:
        return "", "script: over 65536 bytes\n", None
    if lines[-1] == "":
        lines.pop()
    parsed = []
    for k, line in enumerate(lines):
        try:
            parsed.append(parse(line))
        except Bad as why:
            return "", "script line %d: %s; nothing was run\n" % (k + 1, why), None
    card, s, out, err = Card(table[:16385]), start(), "", ""
    for one in filter(None, parsed):
        if one[0] in s or one[0] == "reply-length":
            s["reply" if one[0] == "reply-length" else one[0]] = one[1]
        else:
            out += call(card, s, *one)
    if after and len(card.table) > 16384:
        err, after = "table: over 16384 bytes, not written\n", None
    elif after:
        out += "table written, %d bytes\n" % len(card.table)
    return out + "end of the script\n", err, bytes(card.table) if after else None


def demo():
    card, s = Card(make_table.card()), start()
    s.update(nonce=bytes(range(32)), ready=1, streams=b"\x08" + bytes(31), session=9)

    def ask(kind, payload=b""):
        return call(card, s, "request", bytes([0x10, kind, 0, 0, 0, 1]) + bytes(10) + payload)

    out = "the card\n" + states(card) + ask(0x81) + ask(0x82, bytes(4))
    out += ask(0x83, b"\x05\0\x03\0" + (-65536).to_bytes(8, "little", signed=True) + bytes(8))
    out += ask(0x84, b"\0\0\xff\xff") + ask(0x84, b"\x80\0\xff\xff") + call(card, s, "collect", 0x100, 64)
    out += ask(0x86, bytes(range(1, 33))) + ask(0x86, bytes(range(32)))
    return out + call(card, s, "stream-down", 3) + ask(0x85) + ask(0x87)


if __name__ == "__main__":
    if sys.argv[1:] == ["demo"]:
        sys.stdout.write(demo())
    else:
        given = [open(name, "rb").read() for name in sys.argv[1:3]]
        out, err, table = replay(given[0], given[1], len(sys.argv) > 3)
        sys.stdout.write(out)
        sys.stderr.write(err)
        if table is not None:
            open(sys.argv[3], "wb").write(table)
