#!/usr/bin/env python3
"""Kills `statefun run` over a real folder and a real HTTP endpoint at random moments, each time by its process id with signal 9, and runs
it again, until the job is done; then a new folder. Behind each job `audit` has to say yes, each record of the ingress has to stand in the
committed egress once, each function has to have counted its letters without a gap, each delayed letter has to have come once, and each
answer in the stored record has to be one that the endpoint gave.

The endpoint is here: a function that counts its letters, answers each with its count, sends one in three again after some milliseconds,
and tells a second function, which adds up. Its first request of an address gets the values that it lacks, one in 50 is refused, and one
in 40 is answered too late to count.

Words, none of which is needed: how often to kill (300), how many records a job has (20000), the program, and a number to begin chance
with. It ends with status 1 where something is wrong. A kill leaves what the system holds in memory; what a loss of power leaves is the
model of docs/DISK.md, which is proved."""
import collections
import http.server
import os
import random
import shutil
import socketserver
import subprocess
import sys
import tempfile
import threading
import time

from folder_model import Disk, Log, M, address, msg, num, r_address, r_manifest, r_piece, records, spelled, table, txt, value

TYPE, KEYS = "crash/text", 97
MODULE = """kind: io.statefun.endpoints.v2/http
spec:
  functions: crash/*
  urlPathTemplate: http://127.0.0.1:{}/{{function.name}}
  maxNumBatchRequests: 8
  attempts: 20
  patience: 20
---
kind: local.log.v1/ingress
spec:
  id: crash/names
  splits: 2
  valueType: io.statefun.types/string
  targets:
  - crash/counter
---
kind: local.log.v1/egress
spec:
  id: crash/counts
"""


def wrong(what):
    sys.exit(f"crash: {what}")


# ---- the functions

def read_text(wrapped):
    """The text in a string wrapper."""
    fields = records(wrapped)
    return next((bytes(field[2]) for field in fields if field[0] == 1), b"").decode()


def wrapped(text):
    return value("io.statefun.types/string", True, txt(1, text))


def own(number):
    return value(TYPE, True, str(number).encode())


def answer_of(name, key, cells, letters, rng):
    """What a function answers to its letters, by the value of its only cell."""
    if cells is None:
        return msg(101, msg(1, txt(1, "n") + txt(3, TYPE)))
    count, sent, delayed, given = int(cells or b"0"), [], [], []
    for typename, body in letters:
        if name == "total":
            count += int(body)
            continue
        text = body.decode() if typename == TYPE else read_text(body)
        count += 1
        given.append(msg(4, txt(1, "crash") + txt(2, "counts") + msg(3, own(f"{text} {count}"))))
        sent.append(msg(2, msg(1, address(("crash", "total", "all"))) + msg(2, own(1))))
        if not text.startswith("late-") and int(text.split("-")[1]) % 3 == 0:
            delayed.append(msg(3, num(1, rng.randrange(1, 20)) + msg(2, address(("crash", name, key))) + msg(3, own("late-" + text))))
    change = msg(1, num(1, 1) + txt(2, "n") + msg(3, own(count)))
    return msg(100, change + b"".join(sent) + b"".join(delayed) + b"".join(given))


class Endpoint:
    """The functions, and what they answered to whom."""

    def __init__(self, rng):
        self.rng, self.answers, self.lock = rng, collections.defaultdict(set), threading.Lock()

    def serve(self, body):
        """The answer to a request, or None for a refusal, and the seconds to wait."""
        request = next(bytes(field[2]) for field in records(body) if field[0] == 100)
        target, cells, letters = None, None, []
        for field, _, payload in ((f[0], f[1], f[2]) for f in records(request)):
            if field == 1:
                target = r_address(bytes(payload))
            elif field == 2:
                parts = {f[0]: bytes(f[2]) for f in records(bytes(payload))}
                stored = {f[0]: f[2] for f in records(parts.get(2, b""))}
                cells = bytes(stored.get(3, b""))
            elif field == 3:
                argument = next(bytes(f[2]) for f in records(bytes(payload)) if f[0] == 2)
                parts = {f[0]: f[2] for f in records(argument)}
                letters.append((bytes(parts[1]).decode(), bytes(parts.get(3, b""))))
        with self.lock:
            chance = self.rng.random()
            made = answer_of(target[1], target[2], cells, letters, self.rng)
            if chance < 0.02:
                return None, 0
            self.answers[target].add(made)
            return made, 0.3 if chance > 0.975 else 0


class Handler(http.server.BaseHTTPRequestHandler):
    def do_POST(self):
        made, wait = self.server.endpoint.serve(self.rfile.read(int(self.headers["Content-Length"])))
        time.sleep(wait)
        try:
            self.send_response(200 if made is not None else 503)
            self.send_header("Content-Length", str(len(made or b"")))
            self.end_headers()
            self.wfile.write(made or b"")
        except OSError:
            pass    # the runtime was killed, or waits no longer

    def log_message(self, *words):
        pass


class Server(socketserver.ThreadingMixIn, http.server.HTTPServer):
    daemon_threads, request_queue_size = True, 64

    def handle_error(self, request, client_address):
        pass    # a runtime that was killed in the middle of a request


# ---- a job

class Job:
    """A folder with its logs, and the module file of its job."""

    def __init__(self, program, port, count, rng):
        self.program, self.rng, self.keys = program, rng, []
        self.folder = tempfile.mkdtemp(prefix="crash-runs-")
        self.module = os.path.join(self.folder, "module.yaml")
        with open(self.module, "w", encoding="utf-8") as file:
            file.write(MODULE.format(port))
        for split in range(2):
            keys = [f"k{rng.randrange(KEYS)}" for _ in range(split, count, 2)]
            lines = "".join(f"{key}\tr-{split + 2 * place}\n" for place, key in enumerate(keys))
            self.keys += [(key, f"r-{split + 2 * place}") for place, key in enumerate(keys)]
            told = self.call("append", self.folder, str(split), given=lines)
            if told != (0, f"appended {len(keys)}\n"):
                wrong(f"append told {told}")

    def words(self):
        every = self.rng.choice((1, 2, 7, 30))
        return [self.program, "run", self.module, self.folder, "--partitions", "1", "--every", str(every), "--turns", "1000000", "--drain"]

    def call(self, *words, given=None):
        made = subprocess.run([self.program, *words], input=given, stdout=subprocess.PIPE, stderr=subprocess.DEVNULL, text=True, check=False)
        return made.returncode, made.stdout

    def run_and_kill(self, seconds):
        """Runs for so long at most; the line of the end, or None where it was killed."""
        child = subprocess.Popen(self.words(), stdout=subprocess.PIPE, stderr=subprocess.DEVNULL, text=True)
        try:
            told, _ = child.communicate(timeout=seconds)
        except subprocess.TimeoutExpired:
            child.kill()
            child.communicate()
            return None
        if child.returncode != 0 or not told.startswith("done checkpoint "):
            wrong(f"a run ended with status {child.returncode}: {told!r}, folder {self.folder}")
        return told

    def check_egress(self):
        """Each record once, counted without a gap; each delayed letter once."""
        status, shown = self.call("show", self.folder)
        if status != 0:
            wrong(f"show ended with {status}")
        texts, counts = collections.Counter(), collections.defaultdict(list)
        for line in shown.splitlines():
            _, sender, egress, typename, digits = line.split(" ")
            text, count = bytes.fromhex(digits).decode().split(" ")
            if egress != "crash/counts" or typename != TYPE:
                wrong(f"a record of another egress: {line}")
            key = sender.split("/")[2]
            texts[key, text] += 1
            counts[key].append(int(count))
        wanted = collections.Counter(self.keys)
        wanted.update((key, "late-" + text) for key, text in self.keys if int(text.split("-")[1]) % 3 == 0)
        if texts != wanted:
            wrong(f"the egress has {texts - wanted} too much and {wanted - texts} too few, folder {self.folder}")
        if any(numbers != list(range(1, len(numbers) + 1)) for numbers in counts.values()):
            wrong(f"a function's counts have a gap, folder {self.folder}")
        return sum(wanted.values())

    def check_answers(self, endpoint):
        """Each answer of the stored record is one that its endpoint gave."""
        files = []
        for name in ("manifest", "egress", "pieces-0"):
            with open(os.path.join(self.folder, name), "rb") as file:
                files.append(file.read())
        manifest, pieces = Log(Disk(files), 0), Log(Disk(files), 2)
        count = 0
        for at in manifest.blocks[1:]:
            kind, said = spelled(r_manifest, manifest.block(at))
            if kind != "complete":
                continue
            for _, step, body in spelled(r_piece, pieces.block(said["places"][0][0]))["e"]:
                if step[0] in ("batch", "register"):
                    reply = table(body, b=M(11, bytes), r=M(12, bytes))
                    parts = table(reply["b"] or reply["r"], a=M(2, r_address), x=M(5, bytes))
                    count += 1
                    if (parts["x"] or b"") not in endpoint.answers[parts["a"]]:
                        wrong(f"an answer of {parts['a']} that was not given stands in the record, folder {self.folder}")
        return count

    def check(self, endpoint, told):
        status, audited = self.call("audit", self.module, self.folder)
        number = told.split()[2]
        if status != 0 or not audited.startswith(f"audit yes checkpoint {number} entries "):
            wrong(f"audit told {audited!r}, and the run {told!r}, folder {self.folder}")
        records_out, answers = self.check_egress(), self.check_answers(endpoint)
        print(f"crash: a job of {len(self.keys)} records: {audited.strip()}, {records_out} egress records, {answers} answers", flush=True)
        shutil.rmtree(self.folder)


def main():
    words = sys.argv[1:]
    kills, count = int(words[0]) if words else 300, int(words[1]) if len(words) > 1 else 20000
    program = words[2] if len(words) > 2 else os.path.join(os.path.dirname(__file__), "../crates/statefun/out/statefun")
    seed = int(words[3]) if len(words) > 3 else random.randrange(2**32)
    print(f"crash: begun with {seed}", flush=True)
    rng, killed, jobs = random.Random(seed), 0, 0
    server = Server(("127.0.0.1", 0), Handler)
    server.endpoint = Endpoint(random.Random(seed + 1))
    threading.Thread(target=server.serve_forever, daemon=True).start()
    while killed < kills:
        job = Job(program, server.server_address[1], count, rng)
        told = None
        while told is None:
            told = job.run_and_kill(rng.uniform(0.005, 0.6) if killed < kills else None)
            killed += told is None
        job.check(server.endpoint, told)
        server.endpoint.answers.clear()
        jobs += 1
    server.shutdown()
    print(f"crash: {killed} kills over {jobs} jobs, and nothing was lost or came twice")


if __name__ == "__main__":
    main()
