"""Functions in Python behind an endpoint that the runtime calls over HTTP.

A function is called with a batch of letters to one address, its state and a `Context`; what it sends and stores goes back in one
answer. It stands on Debian's python3-protobuf, and on the messages that protoc makes of proto/request_reply.proto.
"""
from http.server import BaseHTTPRequestHandler, ThreadingHTTPServer

import request_reply_pb2 as messages

INT, STRING = "io.statefun.types/int", "io.statefun.types/string"


def spelled(typename, number, text):
    """A value of a wrapped type: field 1 of an int or a string."""
    if typename == INT:
        return b"\x0d" + number.to_bytes(4, "little", signed=True) if number else b""
    data, length = text.encode(), len(text.encode())
    return b"\x0a" + varint(length) + data if data else b""


def varint(number):
    return bytes([number]) if number < 128 else bytes([number & 127 | 128]) + varint(number >> 7)


def text_of(value):
    """The text of a value that is a string, or None."""
    if value.typename != STRING or not value.has_value:
        return None
    wrapped = messages.Address.FromString(value.value)      # field 1 of both is a string
    return wrapped.namespace


class Context:
    """The address that is called, its state, and what it answers."""

    def __init__(self, batch):
        self.namespace, self.kind, self.id = batch.target.namespace, batch.target.type, batch.target.id
        self.state = {cell.state_name: cell.state_value for cell in batch.state}
        self.answer = messages.InvocationResponse()

    def get_int(self, name):
        """The int of a cell, or 0 where it has none."""
        value = self.state[name].value
        return int.from_bytes(value[1:5], "little", signed=True) if self.state[name].has_value else 0

    def set_int(self, name, number):
        """Stores an int in a cell. What was stored last counts."""
        self.state[name] = messages.TypedValue(typename=INT, has_value=True, value=spelled(INT, number, ""))
        self.answer.state_mutations.add(mutation_type=1, state_name=name, state_value=self.state[name])

    def send(self, kind, ident, text):
        message = self.answer.outgoing_messages.add()
        message.target.CopyFrom(messages.Address(namespace=self.namespace, type=kind, id=ident))
        message.argument.CopyFrom(messages.TypedValue(typename=STRING, has_value=True, value=spelled(STRING, 0, text)))

    def give(self, egress, text):
        record = self.answer.outgoing_egresses.add(egress_namespace=self.namespace, egress_type=egress)
        record.argument.CopyFrom(messages.TypedValue(typename=STRING, has_value=True, value=spelled(STRING, 0, text)))


def answered(functions, body):
    """What the functions answer to the bytes of a request; KeyError for a type that none has."""
    batch = messages.ToFunction.FromString(body).invocation
    cells, function = functions[batch.target.namespace + "/" + batch.target.type]
    context, answer = Context(batch), messages.FromFunction()
    missing = [name for name in cells if name not in context.state]
    if missing:
        for name in missing:
            answer.incomplete_invocation_context.missing_values.add(state_name=name, type_typename=cells[name])
    else:
        for letter in batch.invocations:
            function(context, letter.argument)
        answer.invocation_result.CopyFrom(context.answer)
    return answer.SerializeToString()


def serve(port, functions):
    """Serves functions on loopback for ever: by each type the cells that it declares, with their types, and the function."""

    class Handler(BaseHTTPRequestHandler):
        def do_POST(self):
            try:
                status, body = 200, answered(functions, self.rfile.read(int(self.headers["Content-Length"])))
            except KeyError:
                status, body = 404, b""
            except Exception as fault:        # a request that is none
                self.log_error("%r", fault)
                status, body = 400, b""
            self.send_response(status)
            self.send_header("Content-Type", "application/octet-stream")
            self.send_header("Content-Length", str(len(body)))
            self.end_headers()
            self.wfile.write(body)

        def log_message(self, *_):
            pass

    server = ThreadingHTTPServer(("127.0.0.1", port), Handler)
    print(f"serving {server.server_port}", flush=True)
    server.serve_forever()
