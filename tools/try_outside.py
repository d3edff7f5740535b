"""Cases of `try_program.py` on what the outside can do: closed streams, early and late answers, slow clients, no threads."""

import contextlib
import json
import os
import pty
import re
import select
import shutil
import signal
import socket
import subprocess
import time

from trial import (
    OK, STREAM, Skipped, always, connected, free_port, read_out, read_request, record, shard_line, text_of,
)

PATH = "/2015-03-31/event-source-mappings/"
SHARD = "shard shardId-000000000000"
FILES = {
    "journal.esm": "45534d4a303030320000000000000001" "0100",
    "spare.esm": "45534d4a303030320000000000000000" "0000",
    "failures.esm": "45534d4a303030310000000000000001" "0100",
    "registry.esm": "45534d4a303030310000000000000001" "0100",
}


def request(head, body=b""):
    """A request of these lines and this body."""
    lines = [*head, *([f"Content-Length: {len(body)}"] if body else [])]
    return "".join(line + "\r\n" for line in lines).encode() + b"\r\n" + body


def response(status, body, error=None):
    """The bytes of an answer of `serve`."""
    kind = f"x-amzn-ErrorType: {error}\r\n" if error else ""
    return (f"HTTP/1.1 {status}\r\nContent-Type: application/json\r\n{kind}Content-Length: {len(body)}\r\n"
            f"Connection: close\r\n\r\n{body}").encode()


def refusal(status, error, message):
    return response(status, json.dumps({"Type": "User", "Message": message}, separators=(",", ":")), error)


LIST = request([f"GET {PATH} HTTP/1.1"])
CREATE = request([f"POST {PATH} HTTP/1.1", "Host: 127.0.0.1"], json.dumps(STREAM).encode())
NO_MAPPINGS = response("200 OK", '{"EventSourceMappings":[]}')
FOREIGN = refusal("403 Forbidden", "AccessDeniedException", "host")


def asked(port, request):
    """All that is answered to these bytes."""
    with connected(port) as connection:
        connection.sendall(request)
        return read_out(connection)


# closed streams


def closed_by_run(t):
    report = [shard_line(3, 3, succeeded=3), "calls 1", "done"]
    rows = [("exec >&-", 5, []), ("exec 2>&-", 0, report), ("exec <&-", 0, report), ("exec <&- >&- 2>&-", 5, []),
            ("exec > /dev/full", 5, [])]
    for shell, status, lines in rows:
        t.in_folder([record(n) for n in range(1, 4)])
        t.run(STREAM, status, lines, options=["--read-first"], shell=shell)
        t.said("show", 0, [f"{SHARD} given 3 frontier 3", "done"])
        t.said("failures", 0, ["done"])
        t.same(f"files behind {shell}", {**FILES, "journal.esm": None},
               {name: None if name == "journal.esm" else (t.folder / name).read_bytes().hex() for name in FILES})


def closed_by_others(t):
    for shell in ("exec >&-", "exec <&- >&- 2>&-"):
        t.new_folder()
        t.said("init", 5, [], shell=shell)
        t.same(f"files of init behind {shell}", FILES, {name: (t.folder / name).read_bytes().hex() for name in FILES})
        t.feed([record(n) for n in range(1, 4)])
        t.run(STREAM | {"BatchSize": 1}, 0, [shard_line(3, 3, succeeded=3), "calls 3", "done"])
        for command in ("show", "failures", "compact"):
            t.said(command, 5, [], shell=shell)
            t.said("show", 0, [f"{SHARD} given 3 frontier 3", "done"])
        t.said("compact", 0, ["compacted 1 to 1", "done"])
        t.said("walk", 2, [], shell=shell)


def closed_by_serve(t):
    for shell in ("exec >&-", "exec <&- >&- 2>&-"):
        t.in_folder([])
        port = free_port()
        serving = t.begin(["serve", "--requests", "1"], door=port, shell=shell)
        created = asked(port, CREATE)
        t.same("answer", b"HTTP/1.1 202 Accepted", created.split(b"\r\n")[0])
        t.same(f"status of serve behind {shell}", 5, serving.wait(timeout=60))
        mapping = created.split(b"\r\n\r\n")[1].decode()
        port = free_port()
        serving = t.begin(["serve", "--requests", "1"], door=port, stdout=subprocess.PIPE)
        t.same("mappings", response("200 OK", f'{{"EventSourceMappings":[{mapping}]}}'), asked(port, LIST))
        t.same("output of serve", "served 1\ndone\n", serving.communicate(timeout=60)[0])


def closed_input(t):
    t.run(STREAM, 4, ["calls 0", "input fault"], lines_in=[record(1)], shell="exec <&-")


# answers


def early_answers(t):
    lines = [record(n, data=bytes(1_000_000)) for n in range(1, 5)]  # an event of 5.3 MB
    for status, patience in ((429, 0), (413, 0.3)):

        def serve(connection, number):
            if number == 0:
                connection.recv(1000)
                connection.sendall(f"HTTP/1.1 {status} No\r\nContent-Length: 0\r\nConnection: close\r\n\r\n".encode())
                time.sleep(patience)
            else:
                read_request(connection)
                connection.sendall(b"HTTP/1.1 200 OK\r\nContent-Length: 0\r\nConnection: close\r\n\r\n")

        function = t.peer(serve)
        t.run(STREAM | {"MaximumRetryAttempts": 0}, 0, [shard_line(4, 4, succeeded=4), "calls 2", "done"], function.port,
              lines, ["--read-first"])


def lost_in_time(t, function):
    """Two calls of a second each, which are lost."""
    begun = time.monotonic()
    t.run(STREAM | {"MaximumRetryAttempts": 1}, 0, [shard_line(1, 1, exhausted=1), "calls 2", "done"], function.port,
          [record(1)], ["--timeout", "1"])
    t.between("seconds", 2, 12, time.monotonic() - begun)


def no_answer(t):
    lost_in_time(t, t.peer(lambda connection, number: read_out(connection)))


def no_connection(t):
    """The host takes no further connection: connecting has an end too."""
    listener = socket.create_server(("127.0.0.1", 0), backlog=0)
    address = listener.getsockname()
    waiting = []
    with contextlib.suppress(TimeoutError):
        while True:
            waiting.append(socket.create_connection(address, timeout=0.5))
    begun = time.monotonic()
    t.run(STREAM | {"MaximumRetryAttempts": 1}, 0, [shard_line(1, 1, exhausted=1), "calls 2", "done"], str(address[1]),
          [record(1)], ["--timeout", "1"])
    t.between("seconds", 2, 12, time.monotonic() - begun)
    for connection in [*waiting, listener]:
        connection.close()


def trickling_answer(t):
    answer = b"HTTP/1.1 200 OK\r\nContent-Length: 2\r\n\r\n{}"

    def trickle(size):
        def serve(connection, number):
            read_request(connection)
            for at in range(0, len(answer), size):
                time.sleep(0.3)
                connection.sendall(answer[at:at + size])
            read_out(connection)

        return t.peer(serve)

    lost_in_time(t, trickle(1))
    t.run(STREAM, 0, [shard_line(1, 1, succeeded=1), "calls 1", "done"], trickle(14).port, [record(1)], ["--timeout", "5"])


def large_replies(t):
    """1,000 replies of 1 MB fit into 700 MB: no reply's bytes are held once it is ruled on."""
    f = t.function(always((200, False, b"x" * 1_000_000)))
    t.run(STREAM | {"BatchSize": 1}, 0, [shard_line(1000, 1000, succeeded=1000), "calls 1000", "done"], f.port,
          [record(n) for n in range(1, 1001)], shell="ulimit -v 700000")


def few_descriptors(t):
    """A call for which no descriptor is left waits for one."""
    f = t.function(lambda event, number: (time.sleep(0.05), OK)[1])
    lines = [record(n, key=f"k{n}", shard=n % 3) for n in range(1, 181)]
    mapping = STREAM | {"BatchSize": 1, "ParallelizationFactor": 10, "MaximumRetryAttempts": 0}
    report = [shard_line(60, 60, succeeded=60, shard=n) for n in range(3)]
    t.run(mapping, 0, [*report, "calls 180", "done"], f.port, lines, shell="ulimit -n 16")


# input and output


def no_reader(t):
    """The report goes into a pipe that nobody reads."""
    t.in_folder([record(1)])
    ours, theirs = os.pipe()
    os.close(ours)
    run = t.begin(["run", "--config", json.dumps(STREAM)], stdout=theirs)
    os.close(theirs)
    t.same("status", 5, run.wait(timeout=60))
    t.said("show", 0, [f"{SHARD} given 1 frontier 1", "done"])


def fault_with_open_input(t):
    """A journal that cannot be written ends the run, though its input, a FIFO, stays open."""
    t.in_folder([])
    (t.folder / "input.jsonl").unlink()
    os.mkfifo(t.folder / "input.jsonl")
    run = t.begin(["run", "--config", json.dumps(STREAM | {"BatchSize": 1})], shell="trap '' XFSZ; ulimit -f 0",
                  stdout=subprocess.PIPE)
    with open(t.folder / "input.jsonl", "w") as feed:
        feed.write(text_of([record(1)]))
        feed.flush()
        begun = time.monotonic()
        output = run.communicate(timeout=60)[0]
        t.between("seconds until it ends", 0, 10, time.monotonic() - begun)
    t.same("output", text_of([shard_line(1, 0), "calls 1", "disk fault"]), output)
    t.same("status", 6, run.returncode)


def spent_with_open_input(t):
    """Where all calls allowed were made the run ends, though its input, a FIFO, stays open."""
    t.in_folder([])
    (t.folder / "input.jsonl").unlink()
    os.mkfifo(t.folder / "input.jsonl")
    run = t.begin(["run", "--config", json.dumps(STREAM | {"BatchSize": 1}), "--calls", "2"], stdout=subprocess.PIPE)
    with open(t.folder / "input.jsonl", "w") as feed:
        feed.write(text_of([record(n) for n in range(1, 4)]))
        feed.flush()
        begun = time.monotonic()
        output = run.communicate(timeout=60)[0]
        t.between("seconds until it ends", 0, 10, time.monotonic() - begun)
    t.same("output", text_of([shard_line(3, 2, succeeded=2), "calls 2", "calls spent"]), output)
    t.same("status", 1, run.returncode)


def spent_with_dripping_input(t):
    """And so where a record comes three times a second."""
    t.in_folder([])
    (t.folder / "input.jsonl").unlink()
    os.mkfifo(t.folder / "input.jsonl")
    run = t.begin(["run", "--config", json.dumps(STREAM | {"BatchSize": 1}), "--calls", "2"], stdout=subprocess.PIPE)
    feed = os.open(t.folder / "input.jsonl", os.O_WRONLY)
    begun = time.monotonic()
    with contextlib.suppress(BrokenPipeError):
        for number in range(1, 100):
            os.write(feed, text_of([record(number)]).encode())
            time.sleep(0.3)
            if run.poll() is not None:
                break
    t.between("seconds until it ends", 0, 10, time.monotonic() - begun)
    os.close(feed)
    t.same("output", ["calls 2", "calls spent"], run.communicate(timeout=60)[0].splitlines()[1:])
    t.same("status", 1, run.returncode)


def spent_before_the_input(t):
    """And so where none is allowed, though no writer has opened the FIFO, or none has written."""
    for written in (False, True):
        t.in_folder([])
        (t.folder / "input.jsonl").unlink()
        os.mkfifo(t.folder / "input.jsonl")
        feed = os.open(t.folder / "input.jsonl", os.O_RDWR) if written else None
        begun = time.monotonic()
        t.run(STREAM, 1, ["calls 0", "calls spent"], options=["--calls", "0"])
        t.between("seconds until it ends", 0, 10, time.monotonic() - begun)
        if written:
            os.close(feed)


def full_pipe(t):
    """The report waits for the reader of a pipe that is full."""
    ours, theirs = os.pipe()
    os.set_blocking(theirs, False)
    before = 0
    with contextlib.suppress(BlockingIOError):
        while True:
            before += os.write(theirs, bytes(4096))
    os.set_blocking(theirs, True)
    run = t.begin(["run", "--config", json.dumps(STREAM)], stdin=subprocess.PIPE, stdout=theirs)
    os.close(theirs)
    run.stdin.write(text_of([record(1)]))
    run.stdin.close()
    time.sleep(1)
    t.same("it waits", None, run.poll())
    with open(ours, "rb") as pipe:
        found = pipe.read()[before:]
    t.same("output", text_of([shard_line(1, 1, succeeded=1), "calls 1", "done"]), found.decode())
    t.same("status", 0, run.wait(timeout=60))


# mapping commands


def foreign_requests(t):
    """A web page of elsewhere neither reads nor makes mappings."""
    first = f"GET {PATH} HTTP/1.1"
    rows = [(request([first, *head]), FOREIGN) for head in (
        ["Origin: null"], ["Host: 127.0.0.1", "ORIGIN: http://127.0.0.1"], ["Host: evil.example"],
        ["Host: 127.0.0.1.evil.example"], ["Host: localhost:"], ["Host: localhost:123456"], ["Host: localhost:1x"],
        ["Host: localhost", "Host: evil.example"])]
    rows += [
        (request([f"GET {PATH}?a=b HTTP/1.1", "Origin: null"]), FOREIGN),
        (request(["NO HEAD", "Origin: null"]), refusal("400 Bad Request", "InvalidRequestContentException", "head")),
        (CREATE.replace(b"Host: ", b"Origin: http://"), FOREIGN)]
    rows += [(request([first, *head]), NO_MAPPINGS) for head in (
        [], ["Host: 127.0.0.1"], ["Host: localhost"], ["host: localhost:9002"], ["Host: [::1]:65535"])]
    t.in_folder([])
    port = free_port()
    serving = t.begin(["serve", "--requests", str(len(rows))], door=port, stdout=subprocess.PIPE)
    for text, wanted in rows:
        t.same(f"{text}", wanted, asked(port, text))
    t.same("output", f"served {len(rows)}\ndone\n", serving.communicate(timeout=60)[0])


def stopped_serve(t):
    """A process that is stopped and continued still answers, whether it waits for a connection or for its bytes."""
    t.in_folder([])
    port = free_port()
    serving = t.begin(["serve", "--requests", "3"], door=port, stdout=subprocess.PIPE)
    t.same("first answer", NO_MAPPINGS, asked(port, LIST))
    for front in (0, 10):
        if front:
            connection = connected(port)
            connection.sendall(LIST[:front])
        time.sleep(0.5)
        serving.send_signal(signal.SIGSTOP)
        time.sleep(0.5)
        if not front:
            connection = connected(port)
        serving.send_signal(signal.SIGCONT)
        time.sleep(0.5)
        with connection:
            connection.sendall(LIST[front:])
            t.same(f"answer behind {front} bytes", NO_MAPPINGS, read_out(connection))
    t.same("output", "served 3\ndone\n", serving.communicate(timeout=60)[0])


def slow_client(t):
    """A request that is not whole after 30 seconds is given up, however it trickles, and the next one is served."""
    t.in_folder([])
    port = free_port()
    serving = t.begin(["serve", "--requests", "2"], door=port, stdout=subprocess.PIPE)
    slow = connected(port)
    begun = time.monotonic()
    slow.sendall(f"GET {PATH} HTTP/1.1\r\nX: ".encode())
    with contextlib.suppress(ConnectionError):
        while time.monotonic() - begun < 60 and not select.select([slow], [], [], 1)[0]:
            slow.sendall(b"x")
    t.between("seconds until it is closed", 29, 33, time.monotonic() - begun)
    t.same("answer", NO_MAPPINGS, asked(port, LIST))
    slow.close()
    t.same("output", "served 2\ndone\n", serving.communicate(timeout=60)[0])


def slow_reader(t):
    """An answer that is not taken within 30 seconds is given up, whether none of it is read or a little, and the next client
    is served."""
    filters = [{"Pattern": json.dumps({"partitionKey": [str(n) * 4000]})} for n in range(5)]
    mapping = STREAM | {"FilterCriteria": {"Filters": filters}}
    count = 500  # the list of as many has 10 MB, more than the buffers between two sockets take
    t.in_folder([])
    port = free_port()
    serving = t.begin(["serve", "--requests", str(count + 4)], door=port, stdout=subprocess.PIPE)
    for number in range(count):
        body = json.dumps(mapping | {"FunctionName": f"f{number}"}).encode()
        created = asked(port, request([f"POST {PATH} HTTP/1.1"], body))
        t.same("status", b"HTTP/1.1 202 Accepted", created.split(b"\r\n")[0])
    for reads in (False, True):
        with socket.socket() as slow:
            slow.setsockopt(socket.SOL_SOCKET, socket.SO_RCVBUF, 4096)
            slow.connect(("127.0.0.1", port))
            slow.sendall(LIST)
            begun = time.monotonic()
            with connected(port) as other:
                other.sendall(LIST)
                while not select.select([other], [], [], 0.2)[0] and time.monotonic() - begun < 90:
                    if reads:
                        slow.recv(1000)
                t.between("seconds until the next is served", 29, 33, time.monotonic() - begun)
                t.same("mappings", count, read_out(other).count(b'"UUID"'))
    t.same("output", f"served {count + 4}\ndone\n", serving.communicate(timeout=60)[0])


def all_of(descriptor):
    """What is read from the pipe or the pseudo-terminal until its last writer has left."""
    told = b""
    while True:
        try:
            piece = os.read(descriptor, 4096)
        except OSError:  # so a pseudo-terminal says it
            piece = b""
        if not piece:
            return told.decode()
        told += piece


def watched_run(t):
    """Once a second a terminal at standard error is shown how far a run has come, in a line that is erased at the end; a pipe
    there is shown nothing. The report is the same."""

    def slow(event, number):
        time.sleep(0.05)
        return OK

    function = t.function(slow)
    lines = [record(n) for n in range(1, 61)]
    report = text_of([shard_line(60, 60, succeeded=60), "calls 60", "done"])
    for is_terminal in (True, False):
        watcher, end = pty.openpty() if is_terminal else os.pipe()
        pipes = {"stdin": subprocess.PIPE, "stdout": subprocess.PIPE, "stderr": end}
        run = t.begin(["run", "--config", json.dumps(STREAM | {"BatchSize": 1})], function.port, **pipes)
        os.close(end)
        t.same("output", report, run.communicate(text_of(lines), timeout=60)[0])
        told = all_of(watcher)
        os.close(watcher)
        shown = [tuple(map(int, line)) for line in re.findall(r"\r\x1b\[Kesm: came (\d+), with a fate (\d+), in calls (\d+)\r", told)]
        line = "\r\x1b[Kesm: came %d, with a fate %d, in calls %d\r"
        t.same("what is shown", "".join(line % counts for counts in shown) + ("\r\x1b[K" if is_terminal else ""), told)
        t.same("records that came", {60} if is_terminal else set(), {came for came, _, _ in shown})
        t.same("settled ones", sorted({settled for _, settled, _ in shown}), [settled for _, settled, _ in shown])
        t.between("lines", 2 if is_terminal else 0, 6 if is_terminal else 0, len(shown))


# the machine


FAILS = """
#define _GNU_SOURCE
#include <dlfcn.h>
#include <errno.h>
#include <fcntl.h>
#include <pthread.h>
#include <stdlib.h>
#include <unistd.h>

typedef int (*create)(pthread_t *, const pthread_attr_t *, void *(*)(void *), void *);
static int calls;

int pthread_create(pthread_t *thread, const pthread_attr_t *attributes, void *(*begin)(void *), void *argument) {
    if (__atomic_add_fetch(&calls, 1, __ATOMIC_SEQ_CST) < atoi(getenv("TRIAL_FAILS_FROM")))
        return ((create)dlsym(RTLD_NEXT, "pthread_create"))(thread, attributes, begin, argument);
    close(open(getenv("TRIAL_FAILED"), O_CREAT | O_WRONLY, 0600));
    return EAGAIN;
}
"""


DATES = """
#define _GNU_SOURCE
#include <dlfcn.h>
#include <fcntl.h>
#include <stdlib.h>
#include <time.h>
#include <unistd.h>

static int asked;

int clock_gettime(clockid_t clock, struct timespec *now) {
    int ended = ((int (*)(clockid_t, struct timespec *))dlsym(RTLD_NEXT, "clock_gettime"))(clock, now);
    if (clock == CLOCK_REALTIME) {
        close(open(getenv("TRIAL_ASKED"), O_CREAT | O_WRONLY, 0600));
        if (__atomic_fetch_add(&asked, 1, __ATOMIC_SEQ_CST)) now->tv_sec += atoi(getenv("TRIAL_MOVED"));
    }
    return ended;
}
"""


def preloaded(t, text):
    """A library of this C text in the case's folder, and the path of a file by which it shows that it was called."""
    if not shutil.which("cc"):
        raise Skipped("there is no C compiler")
    source, library, sign = (t.folder / name for name in ("text.c", "text.so", "called"))
    source.write_text(text)
    subprocess.run(["cc", "-shared", "-fPIC", "-o", library, source, "-ldl"], check=True)
    return library, sign


def moved_date(t):
    """A date that is set an hour back or on while a run goes on stops no retry and lets nothing expire."""
    t.new_folder()
    library, sign = preloaded(t, DATES)
    t.folder = None
    arrival = int(time.time() * 1000)
    lines = [record(1, arrival=arrival), record(2, "bad", arrival=arrival)]
    mapping = STREAM | {"BatchSize": 1, "MaximumRetryAttempts": 2, "MaximumRecordAgeInSeconds": 600}
    report = [shard_line(2, 2, succeeded=1, exhausted=1), "calls 4", "done"]
    for moved in (-3600, 3600):
        environment = {**os.environ, "LD_PRELOAD": str(library), "TRIAL_ASKED": str(sign), "TRIAL_MOVED": str(moved)}
        t.run(mapping, 0, report, 'poison:"partitionKey":"bad"', lines, env=environment)
    if not sign.exists():
        raise Skipped("the program reads the clock by other means")


def no_threads(t):
    """Each thread from the n-th on cannot be made: the run ends all the same, with its report or for want of memory."""
    t.new_folder()
    library, sign = preloaded(t, FAILS)
    t.folder = None
    lines = [record(n, key=f"k{n}", shard=n % 2) for n in range(1, 41)]
    report = text_of([shard_line(20, 20, succeeded=20), shard_line(20, 20, succeeded=20, shard=1), "calls 40", "done"])
    for first in range(1, 9):
        sign.unlink(missing_ok=True)
        environment = {**os.environ, "LD_PRELOAD": str(library), "TRIAL_FAILS_FROM": str(first), "TRIAL_FAILED": str(sign)}
        mapping = STREAM | {"BatchSize": 1, "ParallelizationFactor": 10}
        try:
            ended = t.ran(["run", "--config", json.dumps(mapping)], lines_in=lines, timeout=20, env=environment)
        except subprocess.TimeoutExpired:
            ended = "not ended within 20 seconds"
        if first == 1 and not sign.exists():
            raise Skipped("the program makes its threads by other means")
        if ended not in ((report, 0), ("", 70)):
            t.wrong.append(f"{t.name}: no thread from number {first} on: {ended!r}")


def small_stack(t):
    """Each command has room in a stack of 512 kB."""
    shell = "ulimit -s 512"
    t.run(STREAM, 0, [shard_line(3, 3, succeeded=3), "calls 1", "done"], lines_in=[record(n) for n in range(1, 4)],
          options=["--read-first"], shell=shell)
    t.said(["gen", "--records", "1000"], 0, [
        shard_line(500, 500, succeeded=400, filtered=100),
        shard_line(500, 500, succeeded=400, filtered=80, exhausted=20, shard=1), "done"], shell=shell)
    t.new_folder()
    t.said("init", 0, ["done"], shell=shell)
    t.feed([record(n, data=b"[" * 1000 + b"]" * 1000) for n in range(1, 4)])
    mapping = STREAM | {"FilterCriteria": {"Filters": [{"Pattern": '{"partitionKey":["1"]}'}]}, "ParallelizationFactor": 10}
    t.run(mapping, 0, [shard_line(3, 3, succeeded=3), "calls 1", "done"], options=["--read-first"], shell=shell)
    t.said("show", 0, [f"{SHARD} given 3 frontier 3", "done"], shell=shell)
    t.said("failures", 0, ["done"], shell=shell)
    t.said("compact", 0, ["compacted 1 to 1", "done"], shell=shell)
    t.said("migrate", 0, ["version 2", "done"], shell=shell)
    port = free_port()
    serving = t.begin(["serve", "--requests", "1"], door=port, shell=shell, stdout=subprocess.PIPE)
    t.same("answer", b"HTTP/1.1 202 Accepted", asked(port, CREATE).split(b"\r\n")[0])
    t.same("output of serve", "served 1\ndone\n", serving.communicate(timeout=60)[0])


SLOW = [slow_client, slow_reader]
CASES = [
    closed_by_run, closed_by_others, closed_by_serve, closed_input, early_answers, no_answer, no_connection,
    trickling_answer, large_replies, few_descriptors, no_reader, fault_with_open_input, spent_with_open_input,
    spent_with_dripping_input, spent_before_the_input, full_pipe, foreign_requests, stopped_serve, watched_run, no_threads,
    moved_date, small_stack, *SLOW,
]
