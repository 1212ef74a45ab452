"""Times the reading of a module file of 1 MiB by `bench`, and of the same file by PyYAML's C loader. Called by bench/run.

Its words: the program `bench`, and the number of runs of which the best counts."""
import os
import subprocess
import sys
import tempfile
import time

BYTES, ROUNDS = 1 << 20, 20
DOCUMENT = """---
kind: io.statefun.endpoints.v2/http
spec:
  functions: com.example/fn-{0}   # one function
  urlPathTemplate: http://localhost:8000/{{function.name}}
  maxNumBatchRequests: 1000
---
kind: local.log.v1/ingress
spec:
  id: com.example/names-{0}
  valueType: "io.statefun.types/string"
  targets:
    - com.example/greeter-{0}
    - com.example/total-{0}
"""


def module():
    """A module file that is as long as one may be, and how many documents it has."""
    parts, size, number = [], 0, 0
    while True:
        part = DOCUMENT.format(number).encode()
        if size + len(part) > BYTES:
            return b"".join(parts) + b"#" * (BYTES - size), 2 * number
        parts.append(part)
        size += len(part)
        number += 1


def seconds(program, path, count, rounds):
    """The wall clock of one run."""
    with open(path, "rb") as file:
        start = time.perf_counter()
        line = subprocess.run([program, "module", str(count), str(rounds)], stdin=file, stdout=subprocess.PIPE, text=True, check=True).stdout
        took = time.perf_counter() - start
    if not line.endswith(f" bytes {BYTES} same yes\n"):
        sys.exit(f"bench: the module file was not read: {line}")
    return took


def peer(data, runs):
    """The least seconds that PyYAML's C loader takes, or None where it is missing."""
    try:
        from yaml import CBaseLoader, load_all
    except ImportError:
        print("bench: no PyYAML with its C loader, so it is not timed", file=sys.stderr)
        return None
    took = []
    for _ in range(runs):
        start = time.perf_counter()
        list(load_all(data, Loader=CBaseLoader))
        took.append(time.perf_counter() - start)
    return min(took)


def main():
    program, runs = os.path.abspath(sys.argv[1]), int(sys.argv[2])
    data, count = module()
    with tempfile.NamedTemporaryFile(prefix="statefun-bench-") as file:
        file.write(data)
        file.flush()
        bare = min(seconds(program, file.name, count, 0) for _ in range(runs))
        whole = min(seconds(program, file.name, count, ROUNDS) for _ in range(runs))
    ours = max(whole - bare, 1e-6) / ROUNDS
    text = f"module of {BYTES} bytes, {count} documents: {ours * 1000:.1f} ms"
    theirs = peer(data, runs)
    if theirs is not None:
        text += f"; PyYAML's C loader {theirs * 1000:.1f} ms, our time / its time {ours / theirs:.3f}"
    print(text, flush=True)


main()
