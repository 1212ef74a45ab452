"""Times `statefun serve` beside nginx, by `ab` (Debian's nginx-light and apache2-utils), and a run of 20,000 records over HTTP. Called by
bench/run. Its words: the program `statefun`, and the number of runs of which the best counts."""
import os
import shutil
import socket
import subprocess
import sys
import tempfile
import time

REQUESTS, AT_ONCE, RECORDS, KEYS = 10_000, 16, 20_000, 97
REQUEST = (bytes.fromhex("a206400a190a0b") + b"com.example" + bytes.fromhex("1207") + b"greeter" + bytes.fromhex("1a01611a2312210a18")
           + b"io.statefun.types/string" + bytes.fromhex("10011a030a0161"))
ANSWER = 34        # how many bytes the greeter answers to it
NGINX = """daemon off; pid {0}/pid; worker_processes 2; error_log {0}/log; events {{ worker_connections 1024; }}
http {{ access_log off; client_body_temp_path {0}; proxy_temp_path {0}; fastcgi_temp_path {0}; uwsgi_temp_path {0}; scgi_temp_path {0};
server {{ listen 127.0.0.1:{1}; location / {{ default_type application/octet-stream; return 200 "{2}"; }} }} }}
"""
MODULE = """kind: io.statefun.endpoints.v2/http
spec:
  functions: com.example/*
  urlPathTemplate: http://127.0.0.1:{}/{{function.name}}
  maxNumBatchRequests: {}
---
kind: local.log.v1/ingress
spec:
  id: com.example/names
  valueType: io.statefun.types/string
  targets:
  - com.example/greeter
---
kind: local.log.v1/egress
spec:
  id: com.example/greetings
"""


def free_port():
    with socket.socket() as probe:
        probe.bind(("127.0.0.1", 0))
        return probe.getsockname()[1]


def wait_for(port):
    for _ in range(100):
        try:
            socket.create_connection(("127.0.0.1", port)).close()
            return
        except OSError:
            time.sleep(0.05)
    sys.exit(f"bench: nobody listens on port {port}")


def rate(port, path):
    """Requests a second, each on a connection of its own."""
    made = subprocess.run(["ab", "-q", "-n", str(REQUESTS), "-c", str(AT_ONCE), "-p", path, "-T", "application/octet-stream", f"http://127.0.0.1:{port}/greeter"],
                          stdout=subprocess.PIPE, stderr=subprocess.DEVNULL, check=True)
    lines = made.stdout.decode().splitlines()
    if not any(line.split()[:3] == ["Failed", "requests:", "0"] for line in lines) or any(line.startswith("Non-2xx") for line in lines):
        sys.exit("bench: ab tells of requests that failed")
    return next(float(line.split()[3]) for line in lines if line.startswith("Requests per second"))


def beside_nginx(port, runs, folder):
    path, other = os.path.join(folder, "request"), free_port()
    with open(path, "wb") as request:
        request.write(REQUEST)
    with open(os.path.join(folder, "nginx.conf"), "w", encoding="utf-8") as conf:
        conf.write(NGINX.format(folder, other, "a" * ANSWER))
    nginx = subprocess.Popen(["nginx", "-c", os.path.join(folder, "nginx.conf")], stderr=subprocess.DEVNULL)
    try:
        wait_for(other)
        ours, theirs = zip(*[(rate(port, path), rate(other, path)) for _ in range(runs)])
    finally:
        nginx.terminate()
        nginx.wait()
    print(f"serve: {max(ours):.0f} requests a second, {AT_ONCE} at once; nginx with as long a body {max(theirs):.0f}; ours / its {max(ours) / max(theirs):.2f}", flush=True)


def varint(number):
    return bytes([number]) if number < 128 else bytes([number & 127 | 128]) + varint(number >> 7)


def field(number, payload):
    return bytes([number << 3 | 2]) + varint(len(payload)) + payload


def over_http(program, port, runs, folder):
    with open(os.path.join(folder, "split-0.log"), "wb") as log:
        for place in range(RECORDS):
            message = field(1, b"k%d" % (place * 7 % KEYS)) + field(2, field(1, b"n%d" % place))
            log.write(varint(len(message)) + message)
    for letters in (1000, 1):
        with open(os.path.join(folder, "module.yaml"), "w", encoding="utf-8") as module:
            module.write(MODULE.format(port, letters))
        best = 1e9
        for _ in range(runs if letters > 1 else 1):
            begun = time.time()
            made = subprocess.run([program, "run", "module.yaml", "--turns", "1000000"], cwd=folder, stdout=subprocess.PIPE, check=True)
            best = min(best, time.time() - begun)
            if not made.stdout.endswith(b"done taken %d\n" % RECORDS):
                sys.exit("bench: the run over HTTP was not done")
        print(f"run over HTTP: {RECORDS} records, at most {letters} letters a batch: {best:.2f} s, {RECORDS / best:.0f} records a second", flush=True)


def main():
    program, runs, port = os.path.abspath(sys.argv[1]), int(sys.argv[2]), free_port()
    server = subprocess.Popen([program, "serve", str(port)], stdout=subprocess.DEVNULL)
    try:
        wait_for(port)
        with tempfile.TemporaryDirectory(prefix="statefun-bench-") as folder:
            if shutil.which("ab") and shutil.which("nginx"):
                beside_nginx(port, runs, folder)
            else:
                print("bench: no ab or no nginx, so serve is not timed beside it", file=sys.stderr)
            over_http(program, port, runs, folder)
    finally:
        server.kill()
        server.wait()


main()
