"""Times `statefun check` on a module file of 1 MiB with 256 endpoints, 256 egresses and an ingress of 64 targets, the last of
which the last endpoint serves. Called by bench/run.

Its words: the program `statefun`, and the number of runs of which the best counts."""
import os
import subprocess
import sys
import tempfile
import time

BYTES, ENDPOINTS, EGRESSES, TARGETS = 1 << 20, 256, 256, 64


def module():
    """The module file, and the number of lines of its text."""
    parts = []
    for number in range(ENDPOINTS):
        parts.append(f"kind: io.statefun.endpoints.v2/http\nspec:\n  functions: com.example/fn-{number}\n"
                     "  urlPathTemplate: http://localhost:8000/{function.name}\n")
    targets = "".join(f"  - com.example/fn-{ENDPOINTS - TARGETS + number}\n" for number in range(TARGETS))
    parts.append(f"kind: local.log.v1/ingress\nspec:\n  id: com.example/names\n  valueType: io.statefun.types/string\n  targets:\n{targets}")
    for number in range(EGRESSES):
        parts.append(f"kind: local.log.v1/egress\nspec:\n  id: com.example/greetings-{number}\n")
    text = "---\n".join(parts).encode()
    # Comments between the documents fill the file.
    filler = b"# " + b"x" * 77 + b"\n"
    left = BYTES - len(text)
    return text + filler * (left // len(filler)) + b"#" * (left % len(filler)), ENDPOINTS + 1 + EGRESSES


def main():
    program, runs = sys.argv[1], int(sys.argv[2])
    data, lines = module()
    took = []
    with tempfile.TemporaryDirectory() as folder:
        path = os.path.join(folder, "module.yaml")
        with open(path, "wb") as file:
            file.write(data)
        for _ in range(runs):
            start = time.perf_counter()
            done = subprocess.run([program, "check", path], stdout=subprocess.PIPE, text=True, check=False)
            took.append(time.perf_counter() - start)
            if done.returncode != 0 or done.stdout.count("\n") != lines:
                sys.exit(f"bench: the module file was refused: {done.stdout[:200]}")
    print(f"check of {len(data)} bytes, {lines} documents: {min(took):.3f} s")


main()
