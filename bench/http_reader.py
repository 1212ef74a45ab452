"""Says what the program `http_rows` must print for the rows on standard input: each line, and below each row what a message of it
answers. It shares nothing with the program: its grammar of heads, chunk lines and trailers is a machine of states that takes a
byte at a time, and it looks at whole messages alone.

python3 bench/http_reader.py < crates/http_rows/stdin | diff - crates/http_rows/stdout"""
import string
import sys
from urllib.parse import unquote_to_bytes, urlsplit

PART_BYTES, PART_LINES, INTERIMS = 16384, 64, 8
TOKEN = frozenset((string.ascii_letters + string.digits + "!#$%&'*+-.^_`|~").encode())
VALUE = frozenset([9, *range(32, 127), *range(128, 256)])
TARGET = frozenset([*range(33, 127), *range(128, 256)])
HEX = frozenset(string.hexdigits.encode())
DIGITS = frozenset(string.digits.encode())


class Refused(Exception):
    """The bytes do not begin with what they should, or are no message. Its text is the fault."""


class Part:
    """The front of bytes that is taken up to the end of one part, and what was found in it."""

    def __init__(self, data, fault):
        self.data, self.at, self.fault, self.lines = data, 0, fault, []

    def byte(self):
        if self.at >= PART_BYTES:
            raise Refused(self.fault)
        if self.at >= len(self.data):
            raise Refused("cut message")
        self.at += 1
        return self.data[self.at - 1]

    def refuse(self):
        raise Refused(self.fault)

    def byte_in(self, kind):
        byte = self.byte()
        if byte not in kind:
            self.refuse()
        return byte

    def word(self, text):
        for wanted in text:
            if self.byte() != wanted:
                self.refuse()

    def run(self, first, kind):
        """The bytes of a kind from the first on, and the byte behind them."""
        found = bytearray()
        while first in kind:
            found.append(first)
            first = self.byte()
        return bytes(found), first

    def line_end(self, first):
        if first == 13:
            first = self.byte()
        if first != 10:
            self.refuse()

    def blank(self):
        """The first byte behind empty lines."""
        first = self.byte()
        while first in (10, 13):
            self.line_end(first)
            first = self.byte()
        return first

    def section(self):
        """Header lines up to an empty one."""
        while True:
            first = self.byte()
            if first in (10, 13):
                self.line_end(first)
                return
            name, behind = self.run(first, TOKEN)
            if not name or behind != 58:
                self.refuse()
            value, behind = self.run(self.byte(), VALUE)
            self.line_end(behind)
            self.lines.append((name.lower(), value.strip(b" \t").lower()))
            if len(self.lines) > PART_LINES:
                self.refuse()


def response_head(data):
    part = Part(data, "bad head")
    if part.blank() != ord("H"):
        part.refuse()
    part.word(b"TTP/1.")
    if part.byte() not in b"01":
        part.refuse()
    part.word(b" ")
    digits = bytes(part.byte_in(DIGITS) for _ in range(3))
    behind = part.byte()
    if behind == 32:
        _, behind = part.run(part.byte(), VALUE)
    part.line_end(behind)
    part.section()
    return part, int(digits)


def request_head(data):
    part = Part(data, "bad head")
    method, behind = part.run(part.blank(), TOKEN)
    if not method or behind != 32:
        part.refuse()
    target, behind = part.run(part.byte(), TARGET)
    if not target or behind != 32:
        part.refuse()
    try:
        target.decode()
    except UnicodeDecodeError:
        part.refuse()
    part.word(b"HTTP/1.")
    if part.byte() not in b"01":
        part.refuse()
    part.line_end(part.byte())
    part.section()
    return part, method


def chunk_line(data):
    part = Part(data, "bad chunk")
    digits, behind = b"", part.byte_in(HEX)
    while behind in HEX:
        digits += bytes([behind])
        if len(digits) > 16:
            part.refuse()
        behind = part.byte()
    while behind in b" \t":
        behind = part.byte()
    if behind == 59:
        while behind not in b"\r\n":
            behind = part.byte()
    if behind != 13:
        part.refuse()
    part.word(b"\n")
    return part, int(digits, 16)


def chunks(data, limit):
    body = b""
    while True:
        line, size = chunk_line(data)
        data = data[line.at:]
        if size == 0:
            Part(data, "bad head").section()
            return body
        if len(body) + size > limit:
            raise Refused("body over the limit")
        if len(data) < size:
            raise Refused("cut message")
        body, data = body + data[:size], data[size:]
        if data in (b"", b"\r"):
            raise Refused("cut message")
        if not data.startswith(b"\r\n"):
            raise Refused("bad chunk")
        data = data[2:]


def framed(lines):
    """Whether chunks, and the length or None."""
    coded = [value for name, value in lines if name == b"transfer-encoding"]
    stated = [value for name, value in lines if name == b"content-length"]
    if any(value != b"chunked" for value in coded):
        raise Refused("bad head")
    if any(not value or any(digit not in DIGITS for digit in value) or int(value) >= 1 << 63 for value in stated):
        raise Refused("bad head")
    numbers = {int(value) for value in stated}
    if len(numbers) > 1:
        raise Refused("bad head")
    if any(value != b"identity" for name, value in lines if name == b"content-encoding"):
        raise Refused("compressed body")
    return bool(coded), numbers.pop() if numbers else None


def body_of(data, framing, limit, to_the_end):
    chunked, length = framing
    if chunked:
        return chunks(data, limit)
    if length is None and not to_the_end:
        return b""
    if (len(data) if length is None else length) > limit:
        raise Refused("body over the limit")
    if length is None:
        return data
    if len(data) < length:
        raise Refused("cut message")
    return data[:length]


def response(data, limit):
    passed = 0
    while True:
        head, code = response_head(data)
        if not 100 <= code < 200:
            break
        passed += 1
        if passed > INTERIMS:
            raise Refused("bad head")
        data = data[head.at:]
    if not 200 <= code < 300:
        raise Refused(f"status {code}")
    framing = framed(head.lines)
    return b"" if code == 204 else body_of(data[head.at:], framing, limit, True)


def request(data, limit):
    head, method = request_head(data)
    if method != b"POST":
        raise Refused("method is not POST")
    return body_of(data[head.at:], framed(head.lines), limit, False)


def escaped(data):
    plain = frozenset(range(32, 127)) - frozenset(b"%|*")
    return "".join(chr(byte) if byte in plain else f"%{byte:02X}" for byte in data)


def answer(reader, data, limit):
    try:
        body = reader(data, limit)
    except Refused as refused:
        return str(refused)
    if not body:
        return "empty body"
    if len(body) <= 64:
        return f"body of {len(body)}: {escaped(body)}"
    total = 0
    for byte in body:
        total = (total * 31 + byte) % (1 << 32)
    return f"body of {len(body)}, sum {total}"


def places(length):
    return [place for place in range(length) if length <= 512 or place % 1021 == 0 or length - place <= 8]


def answers(reader, data, limit):
    yield answer(reader, data, limit)
    runs = []
    for place in places(len(data)):
        here = answer(reader, data[:place], limit)
        if runs and runs[-1][2] == here:
            runs[-1][1] = place
        else:
            runs.append([place, place, here])
    for first, last, here in runs:
        yield f"cut at {first} to {last}: {here}"


def lines_of(*lines):
    return "".join(line + "\r\n" for line in lines).encode()


def request_to(url, body):
    parts = urlsplit(url)
    path = (parts.path or "/") + (f"?{parts.query}" if "?" in url else "")
    name = parts.netloc.removesuffix(f":{parts.port}")
    host = name if parts.port in (None, 80) else f"{name}:{parts.port}"
    return lines_of(f"POST {path} HTTP/1.1", f"Host: {host}", "Content-Type: application/octet-stream", f"Content-Length: {len(body)}",
                    "Connection: close", "") + body


REASONS = {200: "OK", 400: "Bad Request", 404: "Not Found", 405: "Method Not Allowed", 413: "Content Too Large", 415: "Unsupported Media Type"}


def response_of(status, body):
    first = f"HTTP/1.1 {status} {REASONS.get(status, '')}"
    if status != 200:
        return lines_of(first, "Content-Length: 0", "Connection: close", "")
    return lines_of(first, "Content-Type: application/octet-stream", f"Content-Length: {len(body)}", "Connection: close", "") + body


def bytes_of(parts):
    found = b""
    for part in parts.split("|"):
        text, _, times = part.partition("*")
        found += unquote_to_bytes(text) * int(times or 1)
    return found


def shown(row):
    kind, first, parts = row.split("|", 2)
    data = bytes_of(parts)
    if kind == "to":
        return [escaped(request_to(first, data))]
    if kind == "status":
        return [escaped(response_of(int(first), data))]
    return answers({"response": response, "request": request}[kind], data, int(first))


def main():
    for line in sys.stdin:
        line = line.rstrip("\n")
        print(line)
        if line and not line.startswith("#"):
            for text in shown(line):
                print(f"  {text}")


main()
