"""What the cases of `try_program.py` are written with: inputs, functions that answer, commands that run, journals read."""

import base64
import contextlib
import json
import random
import shutil
import signal
import socket
import struct
import subprocess
import tempfile
import threading
import time
from http.server import BaseHTTPRequestHandler, ThreadingHTTPServer
from pathlib import Path

STREAM = {
    "EventSourceArn": "arn:aws:kinesis:us-east-1:123456789012:stream/s",
    "FunctionName": "f",
    "StartingPosition": "TRIM_HORIZON",
}
QUEUE = {"EventSourceArn": "arn:aws:sqs:us-east-1:123456789012:q", "FunctionName": "f"}
FIFO = {"EventSourceArn": "arn:aws:sqs:us-east-1:123456789012:q.fifo", "FunctionName": "f"}
DESTINATION = {"DestinationConfig": {"OnFailure": {"Destination": "arn:aws:sqs:us-east-1:123456789012:dead"}}}
ITEM_FAILURES = {"FunctionResponseTypes": ["ReportBatchItemFailures"]}

OK = (200, False, b"")
ERROR = (200, True, b'{"errorMessage":"no"}')


# inputs and reports


def record(number, key="1", shard=0, data=b"Hello", arrival=0):
    """An input line of a stream."""
    return json.dumps({
        "shardId": f"shardId-{shard:012}",
        "sequenceNumber": str(number),
        "partitionKey": key,
        "data": base64.b64encode(data).decode(),
        "approximateArrivalTimestamp": arrival,
    })


def message(name, body="x", sent=0, group=None):
    """An input line of a queue."""
    line = {"messageId": name, "body": body, "sentTimestamp": sent}
    if group is not None:
        line["messageGroupId"] = group
    return json.dumps(line)


def text_of(lines):
    return "".join(line + "\n" for line in lines)


def shard_line(records, checkpoint, succeeded=0, filtered=0, expired=0, exhausted=0, shard=0):
    return (f"shard shardId-{shard:012} records {records} checkpoint {checkpoint} succeeded {succeeded} "
            f"filtered {filtered} expired {expired} exhausted {exhausted}")


# functions


class Quiet(ThreadingHTTPServer):
    """A server that does not tell of callers that were killed while they waited."""

    daemon_threads = True
    request_queue_size = 128

    def handle_error(self, request, address):
        pass


class Function:
    """A function on a port of its own: `answer` gives the reply to an event, with the number of the call, from 0."""

    def __init__(self, answer):
        self.answer = answer
        self.events = []
        self.lock = threading.Lock()
        function = self

        class Host(BaseHTTPRequestHandler):
            protocol_version = "HTTP/1.1"

            def do_POST(self):
                text = self.rfile.read(int(self.headers["Content-Length"]))
                with function.lock:
                    number = len(function.events)
                    function.events.append(json.loads(text))
                status, error, body = function.answer(function.events[number], number)
                self.send_response(status)
                if error:
                    self.send_header("X-Amz-Function-Error", "Unhandled")
                self.send_header("Content-Length", str(len(body)))
                self.send_header("Connection", "close")
                self.end_headers()
                self.wfile.write(body)
                self.close_connection = True

            def log_message(self, *words):
                pass

        self.server = Quiet(("127.0.0.1", 0), Host)
        self.port = str(self.server.server_address[1])
        threading.Thread(target=self.server.serve_forever, daemon=True).start()

    def names(self):
        """The sequence numbers or message ids of each call's records."""
        return [[name_of(r) for r in event["Records"]] for event in self.events]

    def close(self):
        self.server.shutdown()
        self.server.server_close()


class Peer:
    """A server on a port of its own that does with each connection as `serve` says, with its number, from 0."""

    def __init__(self, serve, backlog=128):
        self.serve = serve
        self.count = 0
        self.listener = socket.create_server(("127.0.0.1", 0), backlog=backlog)
        self.port = str(self.listener.getsockname()[1])
        threading.Thread(target=self.accept, daemon=True).start()

    def accept(self):
        with contextlib.suppress(OSError):  # the listener was closed
            while True:
                connection, _ = self.listener.accept()
                threading.Thread(target=self.work, args=(connection, self.count), daemon=True).start()
                self.count += 1

    def work(self, connection, number):
        with connection, contextlib.suppress(OSError):  # the caller may be gone
            self.serve(connection, number)

    def close(self):
        self.listener.shutdown(socket.SHUT_RDWR)
        self.listener.close()


def name_of(item):
    return item["kinesis"]["sequenceNumber"] if "kinesis" in item else item["messageId"]


def failed(*names):
    """The answer that reports these records or messages."""
    body = {"batchItemFailures": [{"itemIdentifier": name} for name in names]}
    return (200, False, json.dumps(body).encode())


def always(reply):
    return lambda event, number: reply


def each(*replies):
    """These replies in order, and then success."""
    return lambda event, number: replies[number] if number < len(replies) else OK


def failing(*names):
    """An error for each event with one of these records or messages."""
    return lambda event, number: ERROR if any(name_of(r) in names for r in event["Records"]) else OK


# commands


class Skipped(Exception):
    """What a case needs and the machine lacks."""


class Trial:
    """One case: runs commands of the program, and notes what came out otherwise."""

    def __init__(self, program, name):
        self.program = program
        self.name = name
        self.wrong = []
        self.folder = None
        self.folders = []
        self.servers = []
        self.begun = []

    def same(self, what, wanted, got):
        if wanted != got:
            self.wrong.append(f"{self.name}: {what}: wanted {wanted!r}, got {got!r}")

    def between(self, what, least, most, got):
        if not least <= got <= most:
            self.wrong.append(f"{self.name}: {what}: wanted {least} to {most}, got {got:.2f}")

    def function(self, answer):
        self.servers.append(Function(answer))
        return self.servers[-1]

    def peer(self, serve):
        self.servers.append(Peer(serve))
        return self.servers[-1]

    def new_folder(self):
        self.folder = Path(tempfile.mkdtemp(prefix="esm-try-"))
        self.folders.append(self.folder)

    def in_folder(self, lines):
        """A folder with its files made, and this input."""
        self.new_folder()
        self.said("init", 0, ["done"])
        self.feed(lines)

    def feed(self, lines):
        (self.folder / "input.jsonl").write_text(text_of(lines))

    def words(self, functions, words, door="0"):
        return self.program + [str(self.folder or "-"), functions, door] + words

    def begin(self, words, functions="ok", door="0", shell="", **how):
        """Begins the command, behind what is done in a shell first: a redirection or a limit."""
        words = self.words(functions, words, str(door))
        if shell:
            words = ["sh", "-c", f'{shell}; exec "$@"', "sh", *words]
        self.begun.append(subprocess.Popen(words, text=True, **{"stdin": subprocess.DEVNULL, **how}))
        return self.begun[-1]

    def ran(self, words, functions="ok", lines_in=(), shell="", timeout=120, **how):
        """The output and the exit status of the command."""
        pipes = {"stdin": subprocess.PIPE, "stdout": subprocess.PIPE, "stderr": subprocess.PIPE}
        begun = self.begin(words, functions, shell=shell, **pipes, **how)
        return begun.communicate(text_of(lines_in), timeout=timeout)[0], begun.returncode

    def said(self, words, status, lines, functions="ok", lines_in=None, shell="", **how):
        """Runs the command and compares its output and its exit status."""
        words = words if isinstance(words, list) else [words]
        output, ended = self.ran(words, functions, lines_in or (), shell, **how)
        what = " behind ".join(filter(None, [words[0], shell]))
        self.same(f"output of {what}", text_of(lines), output)
        self.same(f"status of {what}", status, ended)

    def run(self, mapping, status, lines, functions="ok", lines_in=None, options=(), **how):
        self.said(["run", "--config", json.dumps(mapping), *options], status, lines, functions, lines_in, **how)

    def killed_often(self, words, functions, kills, before):
        """Begins the command so many times, each time behind `before()`, and kills it at a random moment. How many times it
        had not ended by itself."""
        begun = time.monotonic()
        self.ran(["show"])
        ready = time.monotonic() - begun  # what a start takes, which may be that of a script
        amid = 0
        for _ in range(kills):
            before()
            command = self.begin(words, functions, stdout=subprocess.DEVNULL)
            time.sleep(ready + random.random() * 0.2)
            amid += command.poll() is None
            command.send_signal(signal.SIGKILL)
            command.wait()
            time.sleep(0.01)
        before()
        return amid

    def close(self):
        for begun in self.begun:
            if begun.poll() is None:
                begun.send_signal(signal.SIGKILL)
                begun.wait()
        for server in self.servers:
            server.close()
        for folder in self.folders:
            shutil.rmtree(folder)


# connections


def free_port():
    with socket.create_server(("127.0.0.1", 0)) as listener:
        return listener.getsockname()[1]


def connected(port, seconds=60):
    """A connection to the port, once somebody listens there."""
    until = time.monotonic() + seconds
    while True:
        try:
            return socket.create_connection(("127.0.0.1", port), timeout=seconds)
        except ConnectionRefusedError:
            if time.monotonic() > until:
                raise
            time.sleep(0.05)


def read_out(connection):
    """All that comes until the other end closes."""
    found = b""
    with contextlib.suppress(ConnectionResetError):
        while piece := connection.recv(65536):
            found += piece
    return found


def read_request(connection):
    """The head and the body of one request."""
    found = b""
    while b"\r\n\r\n" not in found:
        found += more(connection)
    head, body = found.split(b"\r\n\r\n", 1)
    length = int(head.lower().split(b"content-length:")[1].split(b"\r\n")[0])
    while len(body) < length:
        body += more(connection)
    return head, body


def more(connection):
    piece = connection.recv(65536)
    if not piece:
        raise ConnectionError("the other end closed")
    return piece


# journals


def payloads(path):
    """The payloads of the entries whose gates are open."""
    data, at, found = path.read_bytes(), 17, []
    while at < len(data) and data[at] == 1:
        length = struct.unpack(">I", data[at + 1:at + 5])[0]
        found.append(data[at + 5:at + 5 + length])
        at += 5 + length
    return found


def fates(path):
    """Of each shard and place the fates that a mapping's journal names."""
    named = {}
    for payload in payloads(path):
        if payload[0] == 1:
            shard, fate = struct.unpack(">QB", payload[1:10])
            at = 18
            if payload[at] == 1:
                at += 9
                at += 4 + struct.unpack(">I", payload[at:at + 4])[0] - 1
            at += 1
            for place in places(payload, at):
                named.setdefault((shard, place), []).append(fate)
        if payload[0] == 3:
            for place in places(payload, 10):
                named.setdefault(("queue", place), []).append(payload[1])
    return named


def places(payload, at):
    """The places that stand from this byte on, each with its text."""
    count = struct.unpack(">I", payload[at:at + 4])[0]
    at, named = at + 4, []
    for _ in range(count):
        place, length = struct.unpack(">IB", payload[at:at + 5])
        named.append(place)
        at += 5 + length
    return named
