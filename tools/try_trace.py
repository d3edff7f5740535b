#!/usr/bin/env python3
"""Try the traces of the built program: those of random runs hold all rules of `check_trace.py`, and spoilt ones do not.

    tools/try_trace.py PROGRAM [--runs N] [--seed N] [--jobs N]

PROGRAM is what takes the words of the command line, as `./esm`. Each case makes a mapping, an input and a function at random
from its number, and runs the program over them with `--trace`, once or, over a folder, twice, the first time with few calls.
The cases go round the kinds of runs: streams with retries, halving, item failures, lanes, filters, age, windows that wait,
windows that tumble, and journals that fail; queues and FIFO queues; tables' streams; redrives; replays. Each trace must be one
that `check_trace.py` takes, and its calls must be those that the function met. Traces of fixed runs are spoilt, for each rule
in some ways, and `check_trace.py` must refuse each, at the line that is named here. Each case that failed is told, and the
numbers in the last line. The exit status is 0 where none failed.
"""

import argparse
import collections
import concurrent.futures
import json
import random
import shlex
import subprocess
import sys
import tempfile
import time
from pathlib import Path

sys.dont_write_bytecode = True

from trial import DESTINATION, FIFO, ITEM_FAILURES, QUEUE, STREAM, Trial, always, each, message, read_request, record, text_of

TOOLS = Path(__file__).resolve().parent
TABLE = STREAM | {"EventSourceArn": "arn:aws:dynamodb:us-east-1:123456789012:table/tab/stream/1"}
BISECT = {"BisectBatchOnFunctionError": True}


def checked(mapping, lines, output, visibility=30, found=None):
    """The exit status of check_trace.py and what it says."""
    with tempfile.TemporaryDirectory(prefix="esm-trace-") as folder:
        words = [Path(folder) / "mapping.json", Path(folder) / "input.jsonl"]
        words[0].write_text(json.dumps(mapping))
        words[1].write_text(text_of(lines))
        words = [sys.executable, TOOLS / "check_trace.py", *words, "--visibility", str(visibility)]
        words += [] if found is None else ["--found", str(found)]
        ended = subprocess.run(words, input=output, capture_output=True, text=True, timeout=120)
    return ended.returncode, (ended.stdout + ended.stderr).strip()


# functions


def item_name(item):
    return item["messageId"] if "messageId" in item else item.get("kinesis", item.get("dynamodb"))[
        "sequenceNumber" if "kinesis" in item else "SequenceNumber"]


class Server:
    """A function that fails at random, so many times at most, in each way that there is, and notes what its calls held."""

    def __init__(self, rng, fails, rate, slow):
        self.rng, self.fails, self.rate, self.slow, self.met = rng, fails, rate, slow, []

    def serve(self, connection, number):
        event = json.loads(read_request(connection)[1])
        names = [item_name(item) for item in event["Records"]]
        self.met.append(names)
        time.sleep(self.rng.random() * self.slow)
        connection.sendall(self.answer(names, event))

    def answer(self, names, event):
        rng, status, head, body = self.rng, 200, "", "{}"
        if "window" in event or rng.random() < 0.3:
            body = json.dumps({"state": {"n": rng.randrange(1000), "text": "é\n"}})
        if self.fails > 0 and rng.random() < self.rate:
            self.fails -= 1
            way = rng.randrange(9)
            if way == 0:
                return b""
            if way == 1:
                return b"HTTP/1.1 200 OK\r\nContent-Length: 9\r\n\r\ncut"
            if way in (2, 3):
                status = rng.choice([429, 500, 404])
            elif way in (4, 5):
                head, body = "X-Amz-Function-Error: Unhandled\r\n", '{"errorMessage":"no"}'
            elif way in (6, 7):
                some = [name for name in names if rng.random() < 0.3] or names[-1:]
                body = json.dumps({"batchItemFailures": [{"itemIdentifier": name} for name in some]})
            else:
                body = rng.choice(["7", '{"batchItemFailures":7}', '{"state":[]}', "no json"])
        body = body.encode()
        return f"HTTP/1.1 {status} Answer\r\n{head}Content-Length: {len(body)}\r\n\r\n".encode() + body


# inputs


def stream_lines(rng, count, table, spread=2000):
    now, lines, keys, shards = int(time.time() * 1000), [], rng.choice([1, 2, 5, 30]), rng.choice([1, 1, 2, 3])
    for number in range(1, count + 1):
        key, shard, arrival = f"k{rng.randrange(keys)}", rng.randrange(shards), now - 60_000 + rng.randrange(spread)
        if table:
            change = {"Keys": {"id": {"S": key}}, "SequenceNumber": str(number), "SizeBytes": 3, "StreamViewType": "KEYS_ONLY"}
            lines.append(json.dumps({"shardId": f"shardId-{shard:012}", "approximateArrivalTimestamp": arrival, "eventID": f"e{number}",
                                     "eventName": rng.choice(["INSERT", "MODIFY"]), "dynamodb": change}))
        else:
            lines.append(record(number, key, shard, json.dumps({"n": rng.randrange(4)}).encode(), arrival))
    return lines


def queue_lines(rng, count, fifo):
    groups = rng.choice([1, 2, 5])
    return [message(f"m{number}", json.dumps({"n": rng.randrange(4)}), 0, f"g{rng.randrange(groups)}" if fifo else None)
            for number in range(count)]


def filter_of(*patterns):
    return {"FilterCriteria": {"Filters": [{"Pattern": json.dumps(pattern)} for pattern in patterns]}}


# random runs


def some(rng, rate, fields):
    return fields if rng.random() < rate else {}


def stream_mapping(rng, table=False):
    mapping = (TABLE if table else STREAM) | {"BatchSize": rng.choice([1, 2, 3, 5, 10])} | some(rng, 0.4, DESTINATION)
    mapping |= some(rng, 0.7, {"MaximumRetryAttempts": rng.randrange(3)}) | some(rng, 0.4, BISECT) | some(rng, 0.5, ITEM_FAILURES)
    mapping |= some(rng, 0.5, {"ParallelizationFactor": rng.randrange(1, 5)})
    return mapping


def stream(rng):
    return stream_mapping(rng), 0


def filtered(rng):
    patterns = rng.sample([{"data": {"n": [0, 1]}}, {"partitionKey": ["k0", "k3"]}, {"data": {"n": [3]}}], 2)
    return stream_mapping(rng) | filter_of(*patterns), 0


def aged(rng):
    return stream_mapping(rng) | {"MaximumRecordAgeInSeconds": 60}, 0


def tumbling(rng):
    return stream_mapping(rng) | {"ParallelizationFactor": 1, "TumblingWindowInSeconds": rng.choice([1, 2, 30])}, 0


def waiting(rng):
    return stream_mapping(rng) | {"MaximumBatchingWindowInSeconds": 1}, 0


def later(rng):
    return stream_mapping(rng) | {"StartingPosition": "AT_TIMESTAMP", "StartingPositionTimestamp": int(time.time()) - 59}, 0


def table(rng):
    return stream_mapping(rng, True) | some(rng, 0.3, filter_of({"eventName": ["INSERT"]})), 0


def queue(rng):
    mapping = QUEUE | {"BatchSize": rng.choice([1, 2, 5, 10])} | some(rng, 0.6, ITEM_FAILURES)
    mapping |= some(rng, 0.5, {"ScalingConfig": {"MaximumConcurrency": rng.randrange(2, 5)}})
    mapping |= some(rng, 0.3, filter_of({"body": {"n": [0, 2]}})) | some(rng, 0.3, {"MaximumBatchingWindowInSeconds": 1})
    return mapping, rng.randrange(2)


def fifo(rng):
    mapping, visibility = queue(rng)
    return {name: value for name, value in mapping.items() if name != "MaximumBatchingWindowInSeconds"} | FIFO, visibility


def redrive(rng):
    return rng.choice([queue, fifo])(rng)


def replay(rng):
    return stream_mapping(rng) | DESTINATION | {"MaximumRetryAttempts": 0}, 0


def faulty(rng):
    """The journal cannot grow above some hundred bytes, so the run breaks off amid its calls."""
    return stream_mapping(rng), 0


KINDS = [stream, faulty, filtered, aged, tumbling, waiting, later, table, queue, fifo, redrive, replay]


def random_run(t, kind, rng):
    """One case; how many entries its traces have."""
    mapping, visibility = kind(rng)
    is_queue = ":sqs:" in mapping["EventSourceArn"]
    count = rng.choice([0, 1, 3, 10, 25, 40])
    lines = queue_lines(rng, count, ".fifo" in mapping["EventSourceArn"]) if is_queue else stream_lines(
        rng, count, kind is table, rng.choice([1000, 4000, 90_000]) if kind is tumbling else rng.choice([500, 2000]))
    if rng.random() < 0.1:
        lines.append(rng.choice(['{"shardId":"sh', "{}", *lines[-1:]]))
    command = {table: "ddb", redrive: "redrive"}.get(kind, "run")
    base = ["--config", json.dumps(mapping), *(["--visibility", str(visibility)] if is_queue else [])]
    base += ["--max-receives", str(rng.randrange(1, 4))] if kind is redrive else []
    first = ["--read-first"] if command == "run" and rng.random() < 0.5 else []
    folder = kind in (redrive, replay, faulty) or rng.random() < 0.5
    commands = [[command, *base, *first]]
    if folder:
        t.in_folder(lines)
        if rng.random() < 0.7:
            commands.insert(0, [*commands[0], "--calls", str(rng.randrange(8))])
        if kind is replay:
            commands += [["replay", *base, "--calls", str(rng.randrange(6))], ["replay", *base]]
        if kind is redrive:
            commands.append(["run", *base[:-2]])
    elif rng.random() < 0.2:
        commands[0] += ["--calls", str(rng.randrange(8))]
    entries = 0
    if kind is faulty:
        commands = commands[-1:] * 2
    for number, words in enumerate(commands):
        server = Server(rng, rng.choice([0, 2, 4, 5]) * (3 if kind is replay else 1), rng.choice([0.3, 0.9]), rng.choice([0, 0.002, 0.02]))
        functions = rng.choice(["ok", f'poison:{rng.choice(["k0", "k1"])}'] if not is_queue and rng.random() < 0.15 and "MaximumRetryAttempts" in
                               mapping else [t.peer(server.serve).port])
        shell = f"trap '' XFSZ; ulimit -f {rng.randrange(1, 4)}" if kind is faulty and number == 0 else ""
        output = ran(t, [*words, "--trace"], functions, [] if folder else lines, rng, shell)
        status, says = checked(mapping, lines, output, visibility, 0 if number == 0 else None)
        t.same(f"trace of {words}", 0, status)
        trace, report = parted(output)
        entries += len(trace)
        if status:
            t.wrong.append(f"{says}; mapping {json.dumps(mapping)}")
            t.wrong += [f"{number} {line[:300]}" for number, line in enumerate(output.split("\n"), 1)][:80]
        if functions == "ok" and not folder and kind is not aged and first:
            t.same("report without the trace", report, parted(ran(t, words, functions, lines, rng))[1])
        if functions.isdigit():
            t.same("calls", sorted(server.met), sorted(names_of(mapping, lines, trace)))
    return entries


def ran(t, words, functions, lines, rng, shell=""):
    """The output of the command, whose input comes in two parts, or at once."""
    pipes = {"stdin": subprocess.PIPE, "stdout": subprocess.PIPE, "stderr": subprocess.PIPE}
    begun = t.begin(words, functions, shell=shell, **pipes)
    if len(lines) > 1 and rng.random() < 0.3:
        begun.stdin.write(text_of(lines[:len(lines) // 2]))
        begun.stdin.flush()
        time.sleep(0.2)
        lines = lines[len(lines) // 2:]
    return begun.communicate(text_of(lines), timeout=300)[0]


def parted(output):
    """The entries of the trace, and the lines of the report."""
    lines = output.split("\n")[:-1]
    return [json.loads(line) for line in lines if line[:1] == "{"], [line for line in lines if line[:1] != "{"]


def names_of(mapping, lines, trace):
    """What each call of the trace held, by the input."""
    start, shards = mapping.get("StartingPositionTimestamp", 0) * 1000, collections.defaultdict(list)
    for line in lines:
        try:
            it = json.loads(line)
            shard, arrival = it.get("shardId", "queue"), it.get("approximateArrivalTimestamp", 0)
            name = it.get("sequenceNumber") or it.get("messageId") or it["dynamodb"]["SequenceNumber"]
        except (ValueError, KeyError):
            break
        if shards[shard] or arrival >= start:
            shards[shard].append(name)
    return [[shards[it["shard"]][place] for place in it["places"]] for it in trace if it["entry"] == "began"]


# spoilt traces


class Told:
    """The output of a fixed run: its mapping and input, its entries and its report."""

    def __init__(self, t, mapping, lines, functions="ok", options=(), command="run", visibility=30, wanted=None, found=0):
        self.mapping, self.input, self.visibility, self.found = mapping, lines, visibility, found
        words = [command, "--config", json.dumps(mapping), *options, "--trace"]
        self.output = t.ran(words, functions, [] if t.folder else lines)[0]
        self.entries, self.report = parted(self.output)
        kinds = " ".join(it["entry"] + ",".join(map(str, it.get("places", []))) for it in self.entries)
        t.same("entries", wanted, kinds)
        t.same("check of the trace", 0, self.check(self.output)[0])

    def check(self, output):
        return checked(self.mapping, self.input, output, self.visibility, self.found)

    def but(self, change):
        """The output with this change: of the entries, as objects or as texts, or of the report's lines."""
        entries, report = [dict(it) for it in self.entries], [*self.report]
        change(entries, report)
        texts = [it if isinstance(it, str) else json.dumps(it, separators=(",", ":"), ensure_ascii=False) for it in entries]
        return text_of(texts + report)


def put(at, /, **members):
    """Sets members of the entry of this line; None takes one away."""
    def change(entries, report):
        entries[at - 1] = {name: value for name, value in (entries[at - 1] | members).items() if value is not None}
    return change


def drop(*at):
    def change(entries, report):
        for line in sorted(at, reverse=True):
            del entries[line - 1]
    return change


def twice(at):
    return lambda entries, report: entries.insert(at, entries[at - 1])


def swap(one, two):
    def change(entries, report):
        entries[one - 1], entries[two - 1] = entries[two - 1], entries[one - 1]
    return change


def moment(at, after, more):
    """Moves the entries from one on, so that the first is so much after another."""
    def change(entries, report):
        less = entries[at - 1]["at"] - entries[after - 1]["at"] - more
        for it in entries[at - 1:]:
            it["at"] -= less
    return change


def text(at, *parts):
    """Changes the text of an entry."""
    def change(entries, report):
        line = json.dumps(entries[at - 1], separators=(",", ":"))
        assert parts[0] in line, line
        entries[at - 1] = line.replace(*parts, 1)
    return change


def told(at, old, new):
    """Changes a line of the report, counted from 1."""
    def change(entries, report):
        assert old in report[at - 1], report[at - 1]
        report[at - 1] = report[at - 1].replace(old, new, 1)
    return change


def both(*changes):
    def change(entries, report):
        for one in changes:
            one(entries, report)
    return change


def first_run(t):
    """The first run of README: batches of two, one retry, a destination."""
    examples = TOOLS.parent / "examples"
    mapping, lines = json.loads((examples / "mapping.json").read_text()), (examples / "records.jsonl").read_text().splitlines()
    run = Told(t, mapping, lines, 'poison:"partitionKey":"bad"', ["--read-first"], wanted="came shut began0,1 ended gave0,1 began2,3 ended "
               "tried2,3 began2,3 ended gave2,3 began4 ended gave4")
    shard = "shard shardId-000000000000"
    yield run, "form: white space", 3, text(3, ",", ", ")
    yield run, "form: a member out of order", 3, text(3, '"entry":"began","shard":"shardId-000000000000"', '"shard":"shardId-000000000000","entry":"began"')
    yield run, "form: a member left out", 5, put(5, places=None)
    yield run, "form: a member more", 5, put(5, window=1)
    yield run, "form: no line of an entry", 4, text(4, "{", " {")
    yield run, "form: no entry", 2, text(2, "shut", "shot")
    yield run, "form: no fate", 5, put(5, fate="deleted")
    yield run, "form: no JSON", 4, text(4, "}", "")
    yield run, "form: no shard", 4, put(4, shard="shardId-0")
    yield run, "form: another shard", 4, put(4, shard="shardId-000000000001")
    yield run, "form: no number", 4, put(4, lane="0")
    yield run, "form: a fraction", 4, put(4, status=200.5)
    yield run, "form: below zero", 3, put(3, places=[-1])
    yield run, "form: a place twice", 3, put(3, places=[0, 0])
    yield run, "form: no base64", 4, put(4, body="e")
    yield run, "form: base64 of another spelling", 4, put(4, body="eyJ9eB==")
    yield run, "form: a final call with places", 3, put(3, closing=0)
    yield run, "form: a call without places", 3, put(3, places=[])
    yield run, "form: an escape that is none", 11, text(11, "shardId", "shardI\\u0064")
    yield run, "order: an older line", 9, both(put(9, at=run.entries[0]["at"] - 1))
    yield run, "came: twice", 2, twice(1)
    yield run, "came: more than the input has", 1, put(1, count=6)
    yield run, "came: none", 1, put(1, count=0)
    yield run, "came: not the first", 1, put(1, first=1, count=4)
    yield run, "came: less than are called", 12, put(1, count=4)
    yield run, "came: after its call", 1, swap(1, 3)
    yield run, "fate: twice", 6, twice(5)
    yield run, "fate: another one", 6, lambda entries, report: entries.insert(5, entries[4] | {"fate": "expired"})
    yield run, "fate: of a record that did not come", 5, put(5, places=[0, 5])
    yield run, "fate: of the next record", 12, put(11, places=[2, 3, 4])
    yield run, "fate: a record less", 15, put(5, places=[0])
    yield run, "call: of a record with a fate", 6, put(6, places=[1, 2])
    yield run, "overlap: an end left out", 4, drop(4)
    yield run, "overlap: all of a call but its begin left out", 4, drop(4, 5)
    yield run, "overlap: a call begins twice", 4, twice(3)
    yield run, "overlap: a call ends twice", 5, twice(4)
    yield run, "overlap: an end without a call", 3, drop(3)
    yield run, "overlap: a call does not end", 12, drop(13, 14)
    yield run, "overlap: a fate before the end", 4, swap(4, 5)
    yield run, "overlap: a try before the end", 7, swap(7, 8)
    yield run, "batch: above the size", 6, put(6, places=[2, 3, 4])
    yield run, "delay: a millisecond less", 9, moment(9, 7, 249)
    yield run, "delay: none", 9, moment(9, 7, 0)
    for word, value in ("records", 5), ("checkpoint", 5), ("succeeded", 3), ("filtered", 0), ("expired", 0), ("exhausted", 2):
        for other in {value - 1, value + 1} - {-1}:
            yield run, f"report: {word} {other}", 15, told(1, f"{word} {value}", f"{word} {other}")
    yield run, "report: fates exchanged", 15, told(1, "succeeded 3 filtered 0", "succeeded 2 filtered 1")
    yield run, "report: a call less", 16, told(2, "calls 4", "calls 3")
    yield run, "report: a call more", 16, told(2, "calls 4", "calls 5")
    yield run, "report: another last line", 17, told(3, "done", "donne")
    yield run, "report: another shard", 15, told(1, shard, shard[:-1] + "1")
    yield run, "report: a line left out", 17, lambda entries, report: report.pop(0)
    yield run, "report: none", 15, lambda entries, report: report.clear()
    yield run, "report: a line twice", 18, lambda entries, report: report.append("done")
    yield run, "report: a call left out", 13, drop(6, 7, 8)


def key_order(t):
    """Two records of a key, one by one."""
    one_by_one = STREAM | {"BatchSize": 1}
    run = Told(t, one_by_one, [record(1), record(2)], options=["--read-first"], wanted="came shut began0 ended gave0 began1 ended gave1")
    order = both(*(put(at, places=[place]) for at, place in ((3, 1), (5, 1), (6, 0), (8, 0))))
    yield run, "key: the later record first", 3, order
    yield run, "key: the later record alone", 3, both(order, drop(6, 7, 8), told(1, "checkpoint 2 succeeded 2", "checkpoint 0 succeeded 1"),
                                                      told(2, "calls 2", "calls 1"), told(3, "done", "calls spent"))
    yield run, "key: the checkpoint behind an open record", 3, both(order, drop(6, 7, 8), told(1, "succeeded 2", "succeeded 1"), told(2, "calls 2", "calls 1"))
    yield run, "key: one without its fate", 5, both(drop(5), told(1, "succeeded 2", "succeeded 1"))
    yield run, "found: a fate less than the trace gives", 9, told(1, "succeeded 2", "succeeded 1")
    run = Told(t, one_by_one, [record(1), record(2, "2")], options=["--read-first", "--calls", "1"], wanted="came shut began0 ended gave0")
    yield run, "checkpoint: it passes an open record", 6, both(put(3, places=[1]), put(5, places=[1]))
    yield run, "checkpoint: too high", 6, told(1, "checkpoint 1", "checkpoint 2")
    yield run, "checkpoint: too low", 6, told(1, "checkpoint 1", "checkpoint 0")
    yield run, "found: one, where none can be", 8, both(told(1, "checkpoint 1 succeeded 1", "checkpoint 2 succeeded 2"), told(3, "calls spent", "done"))


def not_run(t):
    """A call that is not run three times."""
    function = t.function(each(*[(429, False, b"")] * 3))
    run = Told(t, STREAM, [record(1)], function.port, ["--read-first"], wanted="came shut began0 ended began0 ended began0 ended began0 ended gave0")
    for at, wait in (5, 250), (7, 500), (9, 1000):
        yield run, f"delay: less than {wait}", at, moment(at, at - 1, wait - 1)


def waiting_queue(t):
    function = t.function(each((200, True, b"")))
    run = Told(t, QUEUE | {"BatchSize": 2}, [message(n) for n in "ab"], function.port, ["--read-first", "--visibility", "1"], visibility=1,
               wanted="came shut began0,1 ended began0,1 ended gave0,1")
    yield run, "visibility: a millisecond less", 5, moment(5, 3, 999)
    yield run, "queue: a fate twice", 8, twice(7)
    yield run, "queue: a call of what is deleted", 8, both(twice(7), put(8, entry="began", fate=None, lane=5))
    yield run, "queue: a message less", 8, put(7, places=[0])
    for word in "messages 2", "deleted 2", "succeeded 2", "filtered 0":
        yield run, f"queue: not {word}", 8, told(1, word, word[:-1] + "1")
    run = Told(t, FIFO | {"BatchSize": 1, "ScalingConfig": {"MaximumConcurrency": 2}}, [message("a", group="A"), message("b", group="A")],
               options=["--read-first"], wanted="came shut began0 ended gave0 began1 ended gave1")
    yield run, "group: the later message first", 3, both(*(put(at, places=[place]) for at, place in ((3, 1), (5, 1), (6, 0), (8, 0))))


def restarted(t):
    """The second run over a folder, of which the trace does not tell what the first one did."""
    mapping, lines = STREAM | {"BatchSize": 2}, [record(n, str(n)) for n in range(1, 7)]
    t.in_folder(lines)
    t.ran(["run", "--config", json.dumps(mapping), "--read-first", "--calls", "1"])
    run = Told(t, mapping, lines, options=["--read-first"], wanted="came shut began2,3 ended gave2,3 began4,5 ended gave4,5", found=None)
    yield run, "found: a record less", 9, told(1, "succeeded 6", "succeeded 5")
    yield run, "found: a record more", 9, told(1, "expired 0", "expired 1")
    yield run, "found: a checkpoint below them", 9, told(1, "checkpoint 6", "checkpoint 1")
    yield run, "found: one without a fate", 9, put(5, places=[2])


def redriven(t):
    t.in_folder([message("a"), message("b")])
    function = t.function(always((200, True, b"")))
    run = Told(t, QUEUE | {"BatchSize": 1}, [message("a"), message("b")], function.port, ["--max-receives", "1", "--visibility", "0"], "redrive", 0,
               "came shut began0 ended gave0 began1 ended gave1")
    yield run, "redrive: moved twice", 6, twice(5)
    yield run, "redrive: one more is moved", 9, told(1, "moved 2", "moved 3")
    yield run, "redrive: one less is moved", 9, told(1, "deleted 2 succeeded 0 filtered 0 moved 2", "deleted 1 succeeded 0 filtered 0 moved 1")


def replayed(t):
    mapping, lines = STREAM | DESTINATION | BISECT | {"MaximumRetryAttempts": 0, "BatchSize": 4}, [record(n, str(n)) for n in range(1, 6)]
    t.in_folder(lines)
    t.ran(["run", "--config", json.dumps(mapping), "--read-first"], "poison:kinesis")
    run = Told(t, mapping, lines, 'poison:"sequenceNumber":"3"', command="replay", wanted="began0,1,2,3 ended began0,1 ended replayed0,1 "
               "began2,3 ended began2 ended began3 ended replayed3 began4 ended replayed4")
    yield run, "replay: twice", 6, twice(5)
    yield run, "replay: a call of what was replayed", 6, put(6, places=[1, 2])
    yield run, "replay: no such record", 1, put(1, places=[0, 1, 2, 5])
    yield run, "replay: above the batch size", 1, put(1, places=[0, 1, 2, 3, 4])
    yield run, "replay: overlap", 2, drop(2)
    yield run, "replay: before the end", 4, swap(4, 5)
    for word in "named 5", "replayed 4", "left 1":
        yield run, f"replay: not {word}", 16, told(1, word, word[:-1] + "2")


SPOILT = [first_run, key_order, not_run, waiting_queue, restarted, redriven, replayed]


def spoilt(t, case):
    """Spoils the traces of a case. How many were refused."""
    count = 0
    for run, rule, line, change in case(t):
        try:
            status, says = run.check(run.but(change))
        except AssertionError as error:
            status, says = None, f"not spoilt: {error}"
        t.same(rule, (1, f"line {line}:"), (status, says[:len(f"line {line}:")]))
        count += 1
    return count


def tried(program, name, case, *words):
    """What the case tells, and what is wrong."""
    trial = Trial(program, name)
    try:
        try:
            return case(trial, *words), trial.wrong
        finally:
            trial.close()
    except Exception as error:  # what throws or does not end in time has failed, and the next case is tried
        return 0, [*trial.wrong, f"{name}: {type(error).__name__}: {error}"[:400]]


def main():
    parser = argparse.ArgumentParser(description=__doc__.split("\n")[0])
    parser.add_argument("program", type=shlex.split)
    parser.add_argument("--runs", type=int, default=1000)
    parser.add_argument("--seed", type=int, default=0)
    parser.add_argument("--jobs", type=int, default=8)
    words = parser.parse_args()
    failed, sums = 0, collections.Counter()
    with concurrent.futures.ThreadPoolExecutor(words.jobs) as pool:
        cases = [(f"spoilt {case.__name__}", pool.submit(tried, words.program, case.__name__, spoilt, case)) for case in SPOILT]
        for seed in range(words.seed, words.seed + words.runs):
            kind = KINDS[seed % len(KINDS)]
            name = f"{kind.__name__} {seed}"
            cases.append((kind.__name__, pool.submit(tried, words.program, name, random_run, kind, random.Random(seed))))
        for name, case in cases:
            count, wrong = case.result()
            sums[name] += count
            failed += bool(wrong)
            for line in wrong:
                print("  ", line, flush=True)
    for name, count in sums.items():
        print(f"{name}: {count} {'traces refused' if name.startswith('spoilt') else 'entries right'}")
    print(f"{len(cases) - failed} passed, {failed} failed")
    return 1 if failed else 0


if __name__ == "__main__":
    sys.exit(main())
