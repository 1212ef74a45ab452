#!/usr/bin/env python3
"""What the rows of record_rows come to, by a model of the rules that shares nothing with the program.

  record_model.py < rows > wanted      each line, and below each row what it comes to
  record_model.py --make SEED          the rows of a long random record
"""
import random
import sys
from urllib.parse import unquote_to_bytes

MOST_ANSWER = 4_194_304
MOST_VALUE = 1_048_576
MOST_CELLS = 64
LAST = 2 ** 64 - 1
SPLITS = 2
TARGETS = [("n", "f"), ("n", "g")]
EGRESS = ("n", "e")
MAX_LETTERS, MAX_BYTES = 2, 100


# ---- the wire format

class Fault(Exception):
    pass


def varint(data, at):
    value = 0
    for place in range(10):
        if at + place >= len(data):
            raise Fault
        byte = data[at + place]
        value |= (byte & 127) << (7 * place)
        if byte < 128:
            return value % 2 ** 64, at + place + 1
    raise Fault


def records(data):
    at, found = 0, []
    while at < len(data):
        tag, at = varint(data, at)
        if tag >= 2 ** 32 or tag >> 3 == 0 or tag & 7 in (3, 4, 6, 7):
            raise Fault
        kind = tag & 7
        if kind == 0:
            payload, at = varint(data, at)
        else:
            if kind == 2:
                size, at = varint(data, at)
            else:
                size = 8 if kind == 1 else 4
            if size > len(data) - at:
                raise Fault
            payload, at = data[at:at + size], at + size
        found.append((tag >> 3, kind, payload))
    return found


def signed(value, bits):
    value %= 2 ** bits
    return value - 2 ** bits if value >= 2 ** (bits - 1) else value


# a message: number -> (name, kind); kinds: text, bytes, bool, enum, long, a message, or [a message] where it is repeated
ADDRESS = {1: ("namespace", "text"), 2: ("type", "text"), 3: ("id", "text")}
VALUE = {1: ("typename", "text"), 2: ("has", "bool"), 3: ("value", "bytes")}
MUTATION = {1: ("kind", "enum"), 2: ("name", "text"), 3: ("value", VALUE)}
MESSAGE = {1: ("target", ADDRESS), 2: ("argument", VALUE)}
DELAYED = {1: ("delay", "long"), 2: ("target", ADDRESS), 3: ("argument", VALUE), 10: ("cancels", "bool"), 11: ("token", "text")}
GIVEN = {1: ("namespace", "text"), 2: ("type", "text"), 3: ("argument", VALUE)}
RESULT = {1: ("mutations", [MUTATION]), 2: ("messages", [MESSAGE]), 3: ("delayed", [DELAYED]), 4: ("egresses", [GIVEN])}
EXPIRY = {1: ("mode", "enum"), 2: ("millis", "long")}
MISSING = {1: ("name", "text"), 2: ("expiry", EXPIRY), 3: ("type", "text")}
INCOMPLETE = {1: ("missing", [MISSING])}
DEFAULTS = {"text": b"", "bytes": b"", "bool": False, "enum": 0, "long": 0}


def blank(fields):
    made = {}
    for name, kind in fields.values():
        made[name] = [] if isinstance(kind, list) else None if isinstance(kind, dict) else DEFAULTS[kind]
    return made


def merge(fields, made, data):
    for number, wire, payload in records(data):
        if number not in fields:
            continue
        name, kind = fields[number]
        if isinstance(kind, list):
            if wire == 2:
                made[name].append(merge(kind[0], blank(kind[0]), payload))
        elif isinstance(kind, dict):
            if wire == 2:
                merge(kind, blank(kind), payload)
                made[name] = merge(kind, made[name] or blank(kind), payload)
        elif kind in ("text", "bytes"):
            if wire == 2:
                if kind == "text":
                    try:
                        payload.decode()
                    except UnicodeDecodeError:
                        raise Fault
                made[name] = payload
        elif wire == 0:
            made[name] = payload != 0 if kind == "bool" else signed(payload, 32 if kind == "enum" else 64)
    return made


def answer_of(data):
    """The result or the incomplete context that bytes spell."""
    if len(data) > MOST_ANSWER:
        raise Fault
    member = None
    for number, wire, payload in records(data):
        if wire != 2 or number not in (100, 101):
            continue
        fields = RESULT if number == 100 else INCOMPLETE
        merge(fields, blank(fields), payload)
        if member is None or member[0] != number:
            member = (number, blank(fields))
        merge(fields, member[1], payload)
    if member is None:
        raise Fault
    return member


def put_varint(value):
    out = b""
    while value >= 128:
        out += bytes([value & 127 | 128])
        value >>= 7
    return out + bytes([value])


def sub(number, data):
    return put_varint(number << 3 | 2) + put_varint(len(data)) + data


def text(number, data):
    return sub(number, data) if data else b""


def number(field, value):
    return put_varint(field << 3) + put_varint(value % 2 ** 64) if value else b""


def spelled_address(address):
    return text(1, address[0]) + text(2, address[1]) + text(3, address[2])


def spelled_value(value):
    return text(1, value[0]) + number(2, int(value[1])) + text(3, value[2])


# ---- the machine

def address_of(message):
    if message is None:
        return None
    return (message["namespace"], message["type"], message["id"])


def argument_of(message):
    if message is None:
        return (b"", False, b"")
    return (message["typename"], message["has"], message["value"])


def has_endpoint(address):
    return address is not None and address[0] == b"n"


def function(ident):
    return (b"n", b"f", ident)


class State:
    def __init__(self):
        self.taken, self.mail, self.cells = {}, {}, {}
        self.seen, self.delays, self.egress = {}, {}, {}

    def post(self, sender, target, value):
        self.mail.setdefault((sender, target), []).append(value)

    # ---- takes

    def take(self, split, key):
        if split >= SPLITS or key is None:
            return False
        for namespace, name in TARGETS:
            self.post(split, (namespace.encode(), name.encode(), key), (b"v", True, key))
        self.taken[split] = self.taken.get(split, 0) + 1
        return True

    # ---- answers

    def request(self, address, moment, picks):
        """The size of the request, or None."""
        if not has_endpoint(address) or not 1 <= len(picks) <= MAX_LETTERS:
            return None
        body = sub(1, spelled_address(address))
        for cell in self.cells.get(address, []):
            stored = text(1, cell["name"])
            if cell["value"] is not None and not expired(cell, moment):
                stored += sub(2, spelled_value(cell["value"]))
            body += sub(2, stored)
        used = {}
        for sender in picks:
            waiting = self.mail.get((sender, address), [])
            place = used.get(sender, 0)
            if place >= len(waiting):
                return None
            used[sender] = place + 1
            caller = sub(1, spelled_address(sender)) if isinstance(sender, tuple) else b""
            body += sub(3, caller + sub(2, spelled_value(waiting[place])))
        size = len(sub(100, body))
        return size if size <= MAX_BYTES else None

    def asked(self, address, moment, picks):
        return moment >= self.seen.get(address, 0) and self.request(address, moment, picks) is not None

    def is_valid_result(self, address, result):
        kinds = {cell["name"]: cell["type"] for cell in self.cells.get(address, [])}
        for change in result["mutations"]:
            if change["kind"] not in (0, 1) or change["name"] not in kinds:
                return False
            value = argument_of(change["value"])
            if change["kind"] == 1 and value[1]:
                if value[0] != kinds[change["name"]] or len(value[2]) > MOST_VALUE:
                    return False
        for message in result["messages"]:
            if not has_endpoint(address_of(message["target"])):
                return False
        for delayed in result["delayed"]:
            if delayed["cancels"]:
                if not delayed["token"]:
                    return False
            elif delayed["delay"] < 0 or not has_endpoint(address_of(delayed["target"])):
                return False
        return all((g["namespace"], g["type"]) == (b"n", b"e") for g in result["egresses"])

    def serve(self, address, moment, picks, data):
        if not self.asked(address, moment, picks):
            return False
        try:
            number_, result = answer_of(data)
        except Fault:
            return False
        if number_ != 100 or not self.is_valid_result(address, result):
            return False
        for sender in picks:
            self.mail[(sender, address)].pop(0)
        cells = self.cells.get(address, [])
        for cell in cells:
            if cell["value"] is not None and expired(cell, moment):
                cell["value"], cell["stamp"] = None, 0
            if cell["value"] is not None and cell["mode"] == 2:
                cell["stamp"] = moment
        for change in result["mutations"]:
            cell = next(cell for cell in cells if cell["name"] == change["name"])
            value = argument_of(change["value"])
            if change["kind"] == 1 and value[1]:
                cell["value"], cell["stamp"] = value, moment
            else:
                cell["value"], cell["stamp"] = None, 0
        for message in result["messages"]:
            self.post(address, address_of(message["target"]), argument_of(message["argument"]))
        for delayed in result["delayed"]:
            kept = self.delays.setdefault(address, [])
            if delayed["cancels"]:
                kept[:] = [d for d in kept if d["token"] != delayed["token"]]
            else:
                kept.append({"due": min(moment + delayed["delay"], LAST), "target": address_of(delayed["target"]),
                             "token": delayed["token"], "value": argument_of(delayed["argument"])})
        for given in result["egresses"]:
            self.egress.setdefault(address, []).append(argument_of(given["argument"]))
        self.seen[address] = moment
        return True

    def register(self, address, moment, picks, data):
        if not self.asked(address, moment, picks):
            return False
        try:
            number_, context = answer_of(data)
        except Fault:
            return False
        if number_ != 101:
            return False
        kinds = {cell["name"]: cell["type"] for cell in self.cells.get(address, [])}
        new = []
        for missing in context["missing"]:
            expiry = missing["expiry"] or {"mode": 0, "millis": 0}
            if expiry["mode"] not in (0, 1, 2) or expiry["mode"] in (1, 2) and expiry["millis"] <= 0:
                return False
            if missing["name"] in kinds:
                if kinds[missing["name"]] != missing["type"]:
                    return False
                continue
            if len(kinds) == MOST_CELLS:
                return False
            kinds[missing["name"]] = missing["type"]
            new.append({"name": missing["name"], "type": missing["type"], "mode": expiry["mode"],
                        "millis": max(expiry["millis"], 0), "value": None, "stamp": 0})
        if not new:
            return False
        self.cells.setdefault(address, []).extend(new)
        self.seen[address] = moment
        return True

    # ---- delays

    def due(self, address, moment):
        kept = self.delays.get(address, [])
        ready = [d for d in kept if d["due"] <= moment]
        if not ready:
            return False
        first = min(ready, key=lambda d: d["due"])
        kept.remove(first)
        self.post(address, first["target"], first["value"])
        return True


def expired(cell, moment):
    return cell["mode"] != 0 and cell["stamp"] + cell["millis"] <= moment


# ---- rows

def word_bytes(word):
    return b"" if word == "%" else unquote_to_bytes(word)


def sender_of(word):
    return function(word_bytes(word[1:])) if word.startswith("@") else int(word)


def step(state, word, key=None):
    kind, fields = word.split(":", 1)
    if kind == "take":
        return state.take(int(fields), key)
    if kind == "due":
        ident, moment = fields.split(":")
        return state.due(function(word_bytes(ident)), int(moment))
    ident, moment, senders, data = fields.split(":")
    picks = [sender_of(sender) for sender in senders.split(",")] if senders else []
    make = state.serve if kind == "serve" else state.register
    return make(function(word_bytes(ident)), int(moment), picks, bytes.fromhex(data))


def values_text(values):
    return ",".join(f"{v[0].decode()}:{v[2].hex()}" for v in values) or "none"


def told(state, word):
    kind, fields = word.split(":", 1)
    if kind == "take":
        split, _, key = fields.partition(":")
        found = key.encode() if ":" in fields else None
        return "yes" if state.take(int(split), found) else "no"
    if kind in ("serve", "register", "due"):
        return "yes" if step(state, word) else "no"
    if kind == "taken":
        return str(state.taken.get(int(fields), 0))
    if kind == "mail":
        sender, ident = fields.split(":")
        return values_text(state.mail.get((sender_of(sender), function(word_bytes(ident))), []))
    address = function(word_bytes(fields))
    if kind == "seen":
        return str(state.seen.get(address, 0))
    if kind == "egress":
        return values_text(state.egress.get(address, []))
    if kind == "cells":
        parts = []
        for c in state.cells.get(address, []):
            value = "none" if c["value"] is None else c["value"][2].hex()
            parts.append(f"{c['name'].decode()}:{c['type'].decode()}:{c['stamp']}:{value}")
        return ",".join(parts) or "none"
    if kind == "delays":
        return ",".join(f"{d['due']}:{d['target'][2].decode()}:{d['token'].decode()}:{d['value'][2].hex()}"
                        for d in state.delays.get(address, [])) or "none"
    raise ValueError(word)


def entries(field):
    found = []
    for word in field.split():
        key, made = word.split("=")
        leg, stamp, node = map(int, key.split("."))
        found.append(((leg, stamp, node), made))
    return found


def replayed(row):
    keys, reads, field = row.split("|")
    keys = [key.encode() for key in keys.split()]
    failing = [int(word.split(":")[1]) for word in reads.split()]
    state, count = State(), 0
    for place, (_, word) in enumerate(entries(field)):
        key = None
        if word.startswith("take:") and int(word[5:]) < SPLITS:
            if count in failing:
                return "  ingress fault\n"
            count += 1
            split = int(word[5:])
            list_ = keys if split == 0 else []
            at = state.taken.get(split, 0)
            key = list_[at] if at < len(list_) else None
        if not step(state, word, key):
            return f"  not allowed at {place}\n"
    return f"  replays, taken {state.taken.get(0, 0)} {state.taken.get(1, 0)}\n"


def escaped(data):
    return "".join(chr(b) if 0x21 <= b <= 0x7e and b != 0x25 else "%%%02X" % b for b in data)


def shown(line):
    kind, _, words = line.partition(" ")
    if kind == "steps":
        state = State()
        return "".join(f"  {word} {told(state, word)}\n" for word in words.split())
    if kind == "replay":
        return replayed(words)
    if kind == "merge":
        all_ = [entry for field in words.split("|") for entry in entries(field)]
        return "".join("  %d.%d.%d=%s" % (*key, word) for key, word in sorted(all_, key=lambda e: e[0])) + "\n"
    if kind == "line":
        ident, kind_, value = (words.split(" ") + ["", ""])[:3]
        value = "none" if value == "none" else value.strip("'")
        return f"  n/f/{escaped(word_bytes(ident))} n/e {escaped(word_bytes(kind_))} {value}\n"
    if kind == "url":
        namespace, name = word_bytes(words).decode().split("/", 1)
        is_there = namespace == "n" and "/" not in name
        return f"  http://h/{name}\n" if is_there else "  none\n"
    return "  called\n"


# ---- a long random record

def spelled_result(rng, names, ident_of):
    out = b""
    for _ in range(rng.choice([0, 0, 1, 1, 2])):
        kind = rng.choice([0, 1, 1, 1, 1])
        body = number(1, kind) + text(2, rng.choice(names))
        if kind == 1 and rng.random() < 0.9:
            body += sub(3, spelled_value((b"t", rng.random() < 0.95, bytes([rng.randrange(256)]))))
        out += sub(1, body)
    for _ in range(rng.choice([0, 0, 0, 1, 2])):
        out += sub(2, sub(1, spelled_address(function(ident_of()))) + sub(2, spelled_value((b"m", True, bytes([rng.randrange(256)])))))
    for _ in range(rng.choice([0, 0, 1, 1, 2])):
        token = rng.choice([b"", b"x", b"y", b"z"])
        if rng.random() < 0.25:
            out += sub(3, number(10, 1) + text(11, token))
        else:
            out += sub(3, number(1, rng.choice([0, 1, 5, 30, 200])) + sub(2, spelled_address(function(ident_of())))
                       + sub(3, spelled_value((b"d", True, bytes([rng.randrange(256)])))) + text(11, token))
    for _ in range(rng.choice([0, 0, 1])):
        out += sub(4, text(1, b"n") + text(2, rng.choice([b"e"] * 9 + [b"x"])) + sub(3, spelled_value((b"s", True, bytes([rng.randrange(256)])))))
    return sub(100, out)


def spelled_incomplete(rng, names):
    out = b""
    for _ in range(rng.choice([1, 1, 2])):
        mode = rng.choice([0, 0, 1, 2, 1, 2, 3]) if rng.random() < 0.9 else 0
        millis = rng.choice([1, 10, 40, 100, 0])
        out += sub(1, text(1, rng.choice(names)) + sub(2, number(1, mode) + number(2, millis)) + text(3, rng.choice([b"t"] * 9 + [b"u"])))
    return sub(101, out)


def made_row(seed, count=1000, people=20):
    rng = random.Random(seed)
    idents = [bytes([97 + place]) for place in range(people)]
    names = [b"p", b"q", b"r"]
    state, words, moment = State(), [], 0
    ident_of = lambda: rng.choice(idents)
    while len(words) < count:
        moment += rng.choice([0, 0, 1, 1, 2, 7])
        ident = ident_of()
        address = function(ident)
        kind = rng.random()
        if kind < 0.3:
            word = f"take:{rng.randrange(2)}:{ident.decode()}"
        elif kind < 0.4:
            word = f"due:{ident.decode()}:{moment}"
        else:
            waiting = [s for (s, t), values in state.mail.items() if t == address for _ in values]
            rng.shuffle(waiting)
            picks = waiting[:rng.choice([1, 1, 2, 2, 2, 0, 3])]
            shown_ = ",".join("@" + s[2].decode() if isinstance(s, tuple) else str(s) for s in picks)
            at = moment if rng.random() < 0.97 else max(0, moment - 20)
            name, data = ("register", spelled_incomplete(rng, names)) if rng.random() < 0.3 else ("serve", spelled_result(rng, names, ident_of))
            word = f"{name}:{ident.decode()}:{at}:{shown_}:{data.hex()}"
        told(state, word)
        words.append(word)
    for ident in idents:
        letter = ident.decode()
        words += [f"seen:{letter}", f"cells:{letter}", f"delays:{letter}", f"egress:{letter}", f"mail:0:{letter}", f"mail:1:{letter}"]
        words += [f"mail:@{other.decode()}:{letter}" for other in idents if state.mail.get((function(other), function(ident)))]
    return "steps " + " ".join(words)


def main():
    if len(sys.argv) == 3 and sys.argv[1] == "--make":
        print(made_row(int(sys.argv[2])))
        return
    for line in sys.stdin.read().splitlines():
        print(line)
        if line and not line.startswith("#"):
            sys.stdout.write(shown(line))


if __name__ == "__main__":
    main()
