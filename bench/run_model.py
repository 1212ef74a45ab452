#!/usr/bin/env python3
"""What the rows of run_rows come to, by a model of a run that shares nothing with the program.

  run_model.py < rows > wanted       each line, and below each row what it comes to
  run_model.py --make SEED COUNT     the rows of random jobs
"""
import random
import sys
from urllib.parse import unquote_to_bytes

from record_model import Fault, MOST_ANSWER, MOST_CELLS, MOST_VALUE, LAST, address_of, answer_of, argument_of, escaped, expired
from record_model import number, spelled_address, spelled_value, sub, text

READS, DUES, LONGEST = 64, 1024, 1 << 20
VALUE_TYPE = b"io.statefun.types/string"
# Files that are refused, by the document, line and kind of their first refusal (written down by hand).
REFUSED = {
    "%": (0, 0, "NoIngress"),
    "kind: a%0Akind: b%0A": (1, 2, "DuplicateKey"),
    "kind: local.log.v1/egress%0Aspec:%0A  id: x%0A": (1, 3, "BadValue"),
    "kind: other%0Aspec:%0A": (1, 1, "UnsupportedKind"),
}
FLAWS = "Wire BadMutation UnknownName TypeDiffers TooLarge NoEndpoint NegativeDelay EmptyToken UnknownEgress BadExpiry TooMany NoNewName".split()


class Flawed(Exception):
    def __init__(self, kind, index=0):
        super().__init__()
        self.kind, self.index = kind, index


class Ended(Exception):
    """The run ends: its status, and the line of the end."""

    def __init__(self, status, line):
        super().__init__()
        self.status, self.line = status, line


class Module:
    def __init__(self, field):
        words = field.split(" ")
        keys = dict(word.split(":") for word in words if ":" in word)
        self.targets = [b"greeter", b"total"] if words[0] == "both" else [b"greeter"]
        self.splits = int(keys.get("splits", 1))
        self.max_letters = int(keys.get("maxNumBatchRequests", 1000))
        self.max_bytes = int(keys.get("maxBatchBytes", 4194304))
        self.attempts = int(keys.get("attempts", 3))
        self.patience = int(keys.get("patience", 1000))


def has_endpoint(address):
    return address is not None and address[0] == b"com.example"


def address_text(address):
    return "/".join(escaped(part) for part in address)


def key_of(escaped_text):
    return b"" if escaped_text == "%" else unquote_to_bytes(escaped_text)


def bytes_of(words):
    out = b""
    for word in words.split():
        if word.startswith("'"):
            out += word[1:-1].encode()
        else:
            digits, _, times = word.partition("*")
            out += bytes.fromhex(digits) * int(times or 1)
    return out


def saying(said):
    value = sub(2, b"")[:0] + text(1, VALUE_TYPE) + number(2, 1) + sub(3, sub(1, said))
    return sub(100, sub(4, text(1, b"com.example") + text(2, b"greetings") + sub(3, value)))


def records_of(field):
    found = []
    for word in field.split():
        if word.startswith("many:"):
            found += [(b"k%d" % place, b"\x0a\x01a") for place in range(int(word[5:]))]
        else:
            key, _, value = word.partition("=")
            found.append((key_of(key), bytes_of(value)))
    return found


def script_of(field):
    turns = []
    for word in field.split():
        kind, number_, more = (word.split(":") + ["", ""])[:3]
        if kind == "say":
            turns.append((int(number_), saying(key_of(more))))
        elif kind == "says":
            turns += [(call, saying(b"%d" % call)) for call in range(int(number_), int(more))]
        elif kind == "answer":
            turns.append((int(number_), bytes_of(more)))
        elif kind == "lose":
            turns.append((int(number_), int(more)))
        else:
            turns += [None] * int(number_)
    return turns


def numbers(field, prefix):
    return [int(word[len(prefix):]) for word in field.split() if word.startswith(prefix)]


def wrong_word(words):
    """The first wrong word, or None and the turns."""
    if words[:1] != [b"run"]:
        return 0, None
    if len(words) < 2 or not words[1] or words[1].startswith(b"-"):
        return 1, None
    if words[2:3] == [b"--turns"]:
        place, number_ = 3, words[3] if len(words) > 3 else b""
    else:
        place, number_ = 2, words[2][8:] if len(words) > 2 and words[2].startswith(b"--turns=") else b""
    if not number_.isdigit() or not number_.isascii() or number_[:1] == b"0" or int(number_) > 10 ** 9:
        return place, None
    return (None, int(number_)) if len(words) == place + 1 else (place + 1, None)


class Run:
    def __init__(self, job, splits, failing, script, moments):
        self.job, self.splits, self.script, self.moments = job, splits, script, moments
        self.fail_reads, self.fail_links = numbers(failing, "read:"), numbers(failing, "link:")
        self.reads = self.links = self.polls = self.puts = 0
        self.taken = [0] * job.splits
        self.queue, self.ready = {}, []            # letters of an address by arrival; addresses that wait, longest first
        self.cells, self.delays, self.egress = {}, [], []
        self.turn = self.moment = self.calls = self.stamp = 0
        self.started, self.entries, self.starts, self.steps = [], [], [], []

    # ---- the outside

    def now(self):
        if not self.moments:
            return 0
        moment = self.moments[0]
        if len(self.moments) > 1:
            self.moments = self.moments[1:]
        return moment

    def read(self, split):
        self.reads += 1
        if self.reads - 1 in self.fail_reads:
            raise Ended(9, "ingress fault")
        records = self.splits[split] if split < len(self.splits) else []
        return records[self.taken[split]] if self.taken[split] < len(records) else None

    def link_call(self):
        self.links += 1
        if self.links - 1 in self.fail_links:
            raise Ended(12, "link fault")

    def start(self, name, request):
        self.link_call()
        call = (self.turn, 0, self.calls)
        self.calls += 1
        self.started.append(call)
        self.starts.append("  start %d.%d.%d http://localhost:8000/%s %s" % (*call, name.decode(), request.hex()))
        return call

    def poll(self):
        self.link_call()
        self.polls += 1
        told = self.script.pop(0) if self.script else None
        return (self.started[told[0]], told[1]) if told is not None and told[0] < len(self.started) else None

    # ---- letters

    def post(self, sender, target, value):
        waiting = self.queue.setdefault(target, [])
        waiting.append((sender, value))
        if len(waiting) == 1:
            self.ready.append(target)

    def entry(self, kind, node):
        self.stamp += 1
        self.entries.append(f"{kind}{self.turn}.{self.stamp}.{node}")

    # ---- a turn

    def make_turn(self):
        self.calls = self.stamp = 0
        self.moment = max(self.moment, self.now())
        left = False
        for split in range(self.job.splits):
            left = self.read_split(split) or left
        for _ in range(DUES):
            if not self.send_due():
                break
        if self.ready:
            self.serve(self.ready.pop(0))
        return not left and not self.ready and not self.delays

    def read_split(self, split):
        for _ in range(READS):
            found = self.read(split)
            if found is None:
                return False
            key, value = found
            if len(key) + len(value) > LONGEST:
                raise Ended(8, f"record too large split {split} offset {self.taken[split]} size {len(key) + len(value)}")
            for name in self.job.targets:
                self.post(split, (b"com.example", name, key), (VALUE_TYPE, True, value))
            self.taken[split] += 1
            self.entry("T", split)
        return True

    def send_due(self):
        due = [d for d in self.delays if d["due"] <= self.moment]
        if not due:
            return False
        first = min(due, key=lambda d: (d["due"], d["put"]))
        self.delays.remove(first)
        self.entry("D", self.job.splits)
        self.steps.append(f"  due {address_text(first['sender'])} at {self.moment}")
        self.post(first["sender"], first["target"], first["value"])
        return True

    def request(self, address, letters):
        body = sub(1, spelled_address(address))
        for cell in self.cells.get(address, []):
            stored = text(1, cell["name"])
            if cell["value"] is not None and not expired(cell, self.moment):
                stored += sub(2, spelled_value(cell["value"]))
            body += sub(2, stored)
        for sender, value in letters:
            caller = sub(1, spelled_address(sender)) if isinstance(sender, tuple) else b""
            body += sub(3, caller + sub(2, spelled_value(value)))
        return sub(100, body)

    def serve(self, address):
        most = self.job.max_letters
        while True:
            letters = []
            for letter in self.queue[address][:most]:
                if len(self.request(address, letters + [letter])) > self.job.max_bytes:
                    break
                letters.append(letter)
            if not letters:
                size = len(self.request(address, self.queue[address][:1]))
                raise Ended(7, f"batch too large {address_text(address)} {size} {self.job.max_bytes}")
            call, data, member, effects = self.exchange(address, letters)
            senders = "".join(" split %d" % s if isinstance(s, int) else " " + address_text(s) for s, _ in letters)
            told = "%d.%d.%d %s%s at %d %s" % (*call, address_text(address), senders, self.moment, data.hex())
            if member == 100:
                self.accept(address, len(letters), effects)
                self.entry("B", self.job.splits)
                self.steps.append("  batch " + told)
                return
            self.cells.setdefault(address, []).extend(effects)
            self.entry("R", self.job.splits)
            self.steps.append("  register " + told)
            most = len(letters)

    def exchange(self, address, letters):
        reasons = ""
        for _ in range(self.job.attempts):
            call = self.start(address[1], self.request(address, letters))
            told = None
            for _ in range(self.job.patience):
                outcome = self.poll()
                if outcome is not None and outcome[0] == call:
                    told = outcome[1]
                    break
            if told is None:
                reasons += " late"
            elif isinstance(told, int):
                reasons += f" lost:{told}"
            else:
                try:
                    return (call, told, *self.judged(address, told))
                except Flawed as flaw:
                    reasons += f" refused:{flaw.kind}:{flaw.index}"
        raise Ended(6, f"endpoint failed {address_text(address)}{reasons}")

    # ---- answers

    def judged(self, address, data):
        if len(data) > MOST_ANSWER:
            raise Flawed("Wire")
        try:
            member, answer = answer_of(data)
        except Fault:
            raise Flawed("Wire")
        kinds = {cell["name"]: cell["type"] for cell in self.cells.get(address, [])}
        if member == 101:
            return member, self.missed(kinds, answer)
        for index, change in enumerate(answer["mutations"]):
            if change["kind"] not in (0, 1):
                raise Flawed("BadMutation", index)
            if change["name"] not in kinds:
                raise Flawed("UnknownName", index)
            value = argument_of(change["value"])
            if change["kind"] == 1 and value[1]:
                if value[0] != kinds[change["name"]]:
                    raise Flawed("TypeDiffers", index)
                if len(value[2]) > MOST_VALUE:
                    raise Flawed("TooLarge", index)
        for index, message in enumerate(answer["messages"]):
            if not has_endpoint(address_of(message["target"])):
                raise Flawed("NoEndpoint", index)
        for index, delayed in enumerate(answer["delayed"]):
            if delayed["cancels"]:
                if not delayed["token"]:
                    raise Flawed("EmptyToken", index)
                continue
            if delayed["delay"] < 0:
                raise Flawed("NegativeDelay", index)
            if not has_endpoint(address_of(delayed["target"])):
                raise Flawed("NoEndpoint", index)
        for index, given in enumerate(answer["egresses"]):
            if (given["namespace"], given["type"]) != (b"com.example", b"greetings"):
                raise Flawed("UnknownEgress", index)
        return member, answer

    @staticmethod
    def missed(kinds, answer):
        new = []
        for index, missing in enumerate(answer["missing"]):
            expiry = missing["expiry"] or {"mode": 0, "millis": 0}
            if expiry["mode"] not in (0, 1, 2) or expiry["mode"] and expiry["millis"] <= 0:
                raise Flawed("BadExpiry", index)
            if missing["name"] in kinds:
                if kinds[missing["name"]] != missing["type"]:
                    raise Flawed("TypeDiffers", index)
                continue
            if len(kinds) == MOST_CELLS:
                raise Flawed("TooMany", index)
            kinds[missing["name"]] = missing["type"]
            new.append({"name": missing["name"], "type": missing["type"], "mode": expiry["mode"],
                        "millis": max(expiry["millis"], 0), "value": None, "stamp": 0})
        if not new:
            raise Flawed("NoNewName")
        return new

    def accept(self, address, count, answer):
        # its letters leave, and the address waits again where letters are left, before its own letters arrive
        del self.queue[address][:count]
        if self.queue[address]:
            self.ready.append(address)
        for cell in self.cells.get(address, []):
            if cell["value"] is not None and expired(cell, self.moment):
                cell["value"], cell["stamp"] = None, 0
            if cell["value"] is not None and cell["mode"] == 2:
                cell["stamp"] = self.moment
        for change in answer["mutations"]:
            cell = next(cell for cell in self.cells[address] if cell["name"] == change["name"])
            value = argument_of(change["value"])
            if change["kind"] == 1 and value[1]:
                cell["value"], cell["stamp"] = value, self.moment
            else:
                cell["value"], cell["stamp"] = None, 0
        for message in answer["messages"]:
            self.post(address, address_of(message["target"]), argument_of(message["argument"]))
        for delayed in answer["delayed"]:
            if delayed["cancels"]:
                self.delays = [d for d in self.delays if (d["sender"], d["token"]) != (address, delayed["token"])]
            else:
                self.puts += 1
                self.delays.append({"due": min(self.moment + delayed["delay"], LAST), "put": self.puts, "sender": address,
                                    "target": address_of(delayed["target"]), "token": delayed["token"], "value": argument_of(delayed["argument"])})
        for given in answer["egresses"]:
            kind, has, value = argument_of(given["argument"])
            self.egress.append(f"{address_text(address)} com.example/greetings {escaped(kind)} {value.hex() if has else 'none'}\n")

    def end(self, turns):
        try:
            for self.turn in range(1, turns + 1):
                if self.make_turn():
                    return 0, f"done taken {sum(self.taken)}"
            return 5, f"turns {turns} taken {sum(self.taken)}"
        except Ended as ended:
            return ended.status, ended.line


def checksum(data):
    value = 0xcbf29ce484222325
    for byte in data:
        value = (value ^ byte) * 0x100000001b3 % 2 ** 64
    return value


def written(run, line, failing, status):
    """What the sink holds, and the status: the egress is one write here, and the line another."""
    fails = numbers(failing, "write:")
    parts = [part for part in ["".join(run.egress) if run else "", line + "\n"] if part]
    for place, part in enumerate(parts):
        if place in fails:
            return "".join(parts[:place]), 11
    return "".join(parts), status


def shown_text(content):
    out = "".join(f"  {line}\n" for line in content.splitlines())
    return out + ("" if content.endswith("\n") or not content else "  with no line feed\n")


def row_shown(row):
    words, field, records, failing, script, moments, detail, others = (row.split("|") + [""] * 8)[:8]
    wrong, turns = wrong_word([key_of(word) for word in words.split(" ")] if words else [])
    refused = REFUSED[field[1:]] if field.startswith("=") else None
    run = None
    if wrong is not None:
        status, line = 2, f"usage word {wrong}"
    elif {0, 1} & set(numbers(failing, "file:")):
        status, line = 3, "module fault"
    elif refused:
        status, line = 4, "module refused document %d line %d kind %s" % refused
    else:
        splits = [records_of(split) for split in records.split(";")]
        run = Run(Module(field), splits, failing, script_of(script), [int(word) for word in moments.split()])
        status, line = run.end(turns)
    content, status = written(run, line, failing, status)
    entries = " ".join(run.entries) if run and run.entries else "none"
    started = "".join(" %d.%d.%d" % call for call in run.started) if run and run.started else " none"
    if run and not run.started and run.polls == 0:
        started = " none"
    polls = run.polls if run else 0
    out = shown_text(content) + f"  status {status}; entries {entries}; calls{started}; polls {polls}"
    if refused:
        out += "; no job\n"
    elif others:
        out += "; " + replay_of(others, run) + "\n"
    else:
        taken = (run.taken + [0, 0])[:2] if run else [0, 0]
        out += f"; replays, taken {taken[0]} {taken[1]}, egress {len(run.egress) if run else 0}\n"
    lines = "".join(line_ + "\n" for line_ in (run.starts + run.steps if run else []))
    if detail == "full":
        out += lines
    elif detail == "sum":
        out += f"  sum {checksum(lines.encode())}\n"
    return out


def replay_of(others, run):
    """The replay over other records: the first take that finds none, as far as these rows need it."""
    splits = [records_of(split) for split in others.split(";")]
    counts = {}
    for place, entry in enumerate(run.entries):
        split = int(entry.rsplit(".", 1)[1])
        if entry.startswith("T"):
            if counts.get(split, 0) >= len(splits[split] if split < len(splits) else []):
                return f"not allowed at {place}"
            counts[split] = counts.get(split, 0) + 1
    return f"replays, taken {counts.get(0, 0)} {counts.get(1, 0)}, egress {len(run.egress)}"


def end_shown(field):
    key, *reasons = field.split(" ")
    line = f"endpoint failed com.example/greeter/{escaped(key_of(key))}"
    for reason in reasons:
        parts = reason.split(":")
        if parts[0] == "refused":
            parts[1] = FLAWS[int(parts[1]) - 1]
        line += " " + ":".join(parts)
    return f"  {line}\n  status 6\n"


def shown(line):
    return end_shown(line[4:]) if line.startswith("end ") else row_shown(line)


# ---- random jobs

class Maker:
    """An answer for each call of a run, made as the run asks: mostly valid, now and then lost, late, repeated or flawed."""

    def __init__(self, rng, job, keys):
        self.rng, self.job, self.keys, self.words = rng, job, keys, []
        self.first = {}

    def any_address(self):
        return (b"com.example", self.rng.choice([b"greeter", b"total"]), self.rng.choice(self.keys))

    def value(self, kind=b"t"):
        return (kind, self.rng.random() < 0.95, bytes([self.rng.randrange(256) for _ in range(self.rng.choice([0, 1, 1, 3]))]))

    def result(self, names):
        rng, out = self.rng, b""
        for _ in range(rng.choice([0, 1, 1, 2]) if names else 0):
            kind = rng.choice([0, 1, 1, 1])
            out += sub(1, number(1, kind) + text(2, rng.choice(names)) + (sub(3, spelled_value(self.value())) if kind else b""))
        for _ in range(rng.choice([0, 0, 0, 1])):
            out += sub(2, sub(1, spelled_address(self.any_address())) + sub(2, spelled_value(self.value(b"m"))))
        for _ in range(rng.choice([0, 0, 0, 1])):
            if rng.random() < 0.3:
                out += sub(3, number(10, 1) + text(11, rng.choice([b"x", b"y"])))
            else:
                out += sub(3, number(1, rng.choice([0, 3, 10, 40])) + sub(2, spelled_address(self.any_address()))
                           + sub(3, spelled_value(self.value(b"d"))) + text(11, rng.choice([b"", b"x", b"y"])))
        for _ in range(rng.choice([0, 1, 1, 2])):
            out += sub(4, text(1, b"com.example") + text(2, b"greetings") + sub(3, spelled_value(self.value(b"s"))))
        return sub(100, out)

    def incomplete(self):
        rng, out = self.rng, b""
        for _ in range(rng.choice([1, 1, 2])):
            mode = rng.choice([0, 0, 1, 2])
            out += sub(1, text(1, rng.choice([b"p", b"q"])) + sub(2, number(1, mode) + number(2, rng.choice([1, 10, 30]))) + text(3, b"t"))
        return sub(101, out)

    def bad(self):
        rng = self.rng
        return rng.choice([b"", b"\x08", sub(100, sub(1, number(1, 7))), sub(100, sub(1, text(2, b"none"))), sub(100, sub(2, b"")),
                           sub(100, sub(3, number(1, 2 ** 64 - 1))), sub(100, sub(3, number(10, 1))), sub(100, sub(4, b"")), sub(101, b"")])

    def told(self, run, call):
        """The next turns of the script behind the start of this call."""
        rng, kind = self.rng, self.rng.random()
        address = run.serving
        names = [cell["name"] for cell in run.cells.get(address, [])]
        if rng.random() < 0.1 and call > 0:
            self.put(f"answer:{rng.randrange(call)}:a20600")
        if rng.random() < 0.1:
            self.put("wait:1")
        if kind < 0.06:
            self.put(f"lose:{call}:{rng.choice([0, 3, 20])}")
        elif kind < 0.12:
            self.put(f"wait:{self.job.patience}")
        elif kind < 0.2:
            self.put(f"answer:{call}:{self.bad().hex()}")
        elif kind < 0.45 and len(names) < 2:
            self.put(f"answer:{call}:{self.incomplete().hex()}")
        else:
            self.put(f"answer:{call}:{self.result(names).hex()}")

    def put(self, word):
        self.words.append(word)


class Making(Run):
    """A run whose script is made as it asks."""

    def __init__(self, maker, job, splits, moments):
        super().__init__(job, splits, "", [], moments)
        self.maker, self.serving = maker, None

    def serve(self, address):
        self.serving = address
        super().serve(address)

    def start(self, name, request):
        call = super().start(name, request)
        before = len(self.maker.words)
        self.maker.told(self, len(self.started) - 1)
        self.script += script_of(" ".join(self.maker.words[before:]))
        return call


def made_row(rng):
    keys = [b"a", b"b", b"c"][:rng.choice([1, 2, 3])]
    field = " ".join([rng.choice(["greet", "greet", "both"]), f"splits:{rng.choice([1, 2, 3])}", f"attempts:{rng.choice([2, 3, 4])}", f"patience:{rng.choice([1, 2, 3])}",
                      f"maxNumBatchRequests:{rng.choice([1, 2, 3, 1000])}", f"maxBatchBytes:{rng.choice([90, 150, 200, 300, 4194304])}"])
    job = Module(field)
    records = ";".join(" ".join(f"{rng.choice(keys).decode()}={bytes([10, 1, 97 + rng.randrange(26)]).hex()}" for _ in range(rng.choice([0, 1, 2, 4])))
                       for _ in range(job.splits))
    moments, at = [], 0
    for _ in range(rng.choice([3, 12, 30])):
        at = max(0, at + rng.choice([0, 1, 2, 5, 9, -3]))
        moments.append(at)
    moments.append(at + 1000)
    maker = Maker(rng, job, keys)
    splits = [records_of(split) for split in records.split(";")]
    turns = rng.choice([3, 12, 40])
    run = Making(maker, job, splits, list(moments))
    run.end(turns)
    clock = " ".join(str(moment) for moment in moments)
    return f"run m --turns {turns}|{field}|{records}||{' '.join(maker.words)}|{clock}|sum"


def main():
    if len(sys.argv) == 4 and sys.argv[1] == "--make":
        rng = random.Random(int(sys.argv[2]))
        for _ in range(int(sys.argv[3])):
            print(made_row(rng))
        return
    for line in sys.stdin.read().splitlines():
        print(line)
        if line and not line.startswith("#"):
            sys.stdout.write(shown(line))


if __name__ == "__main__":
    main()
