#!/usr/bin/env python3
"""Serve a Lambda handler over HTTP on 127.0.0.1, as `esm` calls it.

The handler is a function of a Python file, by default `handler(event, context)`. It answers at the path

    /2015-03-31/functions/NAME/invocations

of the Lambda API, under any NAME unless --name gives one. The event is the request's JSON body, and what the handler
returns is the answer's. A raised exception is answered as Lambda does it: status 200, the header
`X-Amz-Function-Error: Unhandled`, and a body with `errorMessage`, `errorType` and `stackTrace`. Each connection carries
one request. One with an `Origin`, or with a `Host` that is not this one, is refused: it comes from a web page. Python's
standard library is all that is needed.
"""

import argparse
import contextlib
import importlib.util
import json
import os
import re
import sys
import traceback
import uuid
from http.server import BaseHTTPRequestHandler, ThreadingHTTPServer
from pathlib import Path

PATH = re.compile(r"/2015-03-31/functions/([^/]+)/invocations")
HERE = re.compile(r"(127\.0\.0\.1|localhost|\[::1\])(:[0-9]{1,5})?", re.IGNORECASE)
LENGTH = re.compile(r"[0-9]{1,9}")


class Context:
    """What a handler is told of its call."""

    def __init__(self, name):
        self.function_name = name
        self.aws_request_id = str(uuid.uuid4())


class Refused(Exception):
    """A request that is no call of a function that is served: a status and what is wrong."""


def load(file, function):
    """The function of that name in the file."""
    spec = importlib.util.spec_from_file_location(file.stem, file)
    sys.dont_write_bytecode = True  # no __pycache__ is left beside the handler
    module = importlib.util.module_from_spec(spec)
    sys.modules[spec.name] = module  # where dataclasses, pickle and typing look for it
    sys.path.insert(0, str(file.parent))
    spec.loader.exec_module(module)
    return getattr(module, function)


def failure(error):
    """Lambda's error body for an exception."""
    trace = traceback.format_tb(error.__traceback__)[1:]
    return {"errorMessage": str(error), "errorType": type(error).__name__, "stackTrace": trace}


def log(text):
    """Tells it on standard error. Where that fails, since nobody reads it say, no call fails for it."""
    with contextlib.suppress(OSError, ValueError):
        sys.stderr.write(text)


class Server(ThreadingHTTPServer):
    """Takes many connections at once, as the lanes of a mapping make them."""

    request_queue_size = 128

    def handle_error(self, request, client_address):
        log(traceback.format_exc())


class Host(BaseHTTPRequestHandler):
    """Answers one call of the function on each connection."""

    protocol_version = "HTTP/1.1"
    handler = None
    name = None

    def do_POST(self):
        try:
            function, event = self.read_call()
        except Refused as refused:
            status, reason = refused.args
            self.answer(status, json.dumps({"message": reason}))
            return
        try:
            result = json.dumps(self.handler(event, Context(function)))
        except Exception as error:  # whatever a handler raises is the function's error
            log(traceback.format_exc())
            self.answer(200, json.dumps(failure(error)), "Unhandled")
            return
        self.answer(200, result)

    def read_call(self):
        """The function's name and the event, or what is wrong with the request."""
        if "Origin" in self.headers or not all(HERE.fullmatch(host.strip()) for host in self.headers.get_all("Host", [])):
            raise Refused(403, "not a call from this host")
        length = ",".join(self.headers.get_all("Content-Length", [])).strip()
        if not LENGTH.fullmatch(length):
            raise Refused(400, "no Content-Length")
        body = self.rfile.read(int(length))
        found = PATH.fullmatch(self.path)
        if not found or self.name not in (None, found[1]):
            raise Refused(404, "no such function")
        try:
            return found[1], json.loads(body)
        except (ValueError, RecursionError):
            raise Refused(400, "the body is no JSON event") from None

    def answer(self, status, text, function_error=None):
        body = text.encode()
        self.send_response(status)
        self.send_header("Content-Type", "application/json")
        self.send_header("Content-Length", str(len(body)))
        self.send_header("Connection", "close")
        if function_error:
            self.send_header("X-Amz-Function-Error", function_error)
        self.end_headers()
        self.wfile.write(body)

    def log_message(self, *words):
        with contextlib.suppress(OSError, ValueError):
            super().log_message(*words)


def main():
    words = argparse.ArgumentParser(description=__doc__, formatter_class=argparse.RawDescriptionHelpFormatter)
    words.add_argument("file", type=Path, help="the Python file that has the handler")
    words.add_argument("--port", type=int, default=9001, help="the port on 127.0.0.1 (9001)")
    words.add_argument("--function", default="handler", help="the handler's name in the file (handler)")
    words.add_argument("--name", help="the one function name to answer under (any)")
    chosen = words.parse_args()
    sys.stderr = sys.stderr or open(os.devnull, "w")  # it is none where it was closed
    Host.handler = staticmethod(load(chosen.file.resolve(), chosen.function))
    Host.name = chosen.name
    with Server(("127.0.0.1", chosen.port), Host) as server:
        where = f"http://127.0.0.1:{server.server_port}/2015-03-31/functions/{chosen.name or 'NAME'}/invocations"
        log(f"serving {chosen.function} of {chosen.file} at {where}\n")
        try:
            server.serve_forever()
        except KeyboardInterrupt:
            log("stopped\n")


if __name__ == "__main__":
    main()
