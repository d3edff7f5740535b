#!/usr/bin/env python3
"""Try the built program over real folders, pipes and sockets.

    tools/try_program.py PROGRAM [--only NAME] [--quick] [--kills N]

PROGRAM is what takes the words of the command line, as `./esm`. Each case is a worked example of a run: a mapping, an
input, the answers of a function, and the report and exit status that they must give. The functions are served here, on
127.0.0.1, and remember which records each call held. Further cases try what the outside can do (`try_outside.py`);
`--quick` leaves out those that take half a minute. Those of `replay` stand in `try_replay.py`, those of `redrive` in
`try_redrive.py`, those of the lines that `from_aws.py` makes in `try_from_aws.py`. `--kills N` runs more cases: a command
over a folder that is killed at N random moments and begun again each time. Of a run every record has one fate in the journal
then, and no call held a record that had one; of a replay every record was replayed once, and no call held one that was; of a
redrive every message has one deletion, no call held one that had, and each message that was moved has one line. Each case is
told in a line, and the numbers of those that passed and failed in the last. Python's standard library is all that is needed.
The exit status is 0 where no case failed.
"""

import argparse
import json
import random
import shlex
import struct
import sys
import time

sys.dont_write_bytecode = True

import try_from_aws
import try_outside
import try_redrive
import try_replay
from trial import (
    DESTINATION, ERROR, FIFO, ITEM_FAILURES, OK, QUEUE, STREAM, Skipped, Trial, always, each, failed, failing, fates, message,
    name_of, payloads, record, shard_line,
)

# streams


def empty_input(t):
    t.run(STREAM, 0, ["calls 0", "done"], lines_in=[])


def one_record(t):
    f = t.function(always(OK))
    t.run(STREAM, 0, [shard_line(1, 1, succeeded=1), "calls 1", "done"], f.port, [record(1)])
    t.same("event", {
        "kinesisSchemaVersion": "1.0", "partitionKey": "1", "sequenceNumber": "1", "data": "SGVsbG8=",
        "approximateArrivalTimestamp": 0.0,
    }, f.events[0]["Records"][0]["kinesis"])


def bisect_eight(t):
    f = t.function(failing("5"))
    mapping = STREAM | {"BisectBatchOnFunctionError": True, "MaximumRetryAttempts": 0}
    lines = [record(n) for n in range(1, 9)]
    t.run(mapping, 0, [shard_line(8, 8, succeeded=7, exhausted=1), "calls 7", "done"], f.port, lines)
    t.same("calls", [list("12345678"), list("1234"), list("5678"), list("56"), ["5"], ["6"], list("78")], f.names())


def exhaust_eight(t):
    f = t.function(failing("5"))
    t.in_folder([record(n) for n in range(1, 9)])
    t.run(STREAM | {"MaximumRetryAttempts": 0} | DESTINATION, 0, [shard_line(8, 8, exhausted=8), "calls 1", "done"], f.port)
    lines = payloads(t.folder / "failures.esm")
    t.same("failure lines", 1, len(lines))
    line = json.loads(lines[0])
    t.same("condition", "RetryAttemptsExhausted", line["requestContext"]["condition"])
    t.same("calls of the line", 1, line["requestContext"]["approximateInvokeCount"])
    t.same("batch of the line", ("1", "8", 8), (line["KinesisBatchInfo"]["startSequenceNumber"],
                                              line["KinesisBatchInfo"]["endSequenceNumber"],
                                              line["KinesisBatchInfo"]["batchSize"]))
    t.said("failures", 0, [lines[0].decode(), "done"])


def retry_delays(t):
    begun = []
    f = t.function(lambda event, number: (begun.append(time.time()), ERROR)[1])
    t.run(STREAM | {"MaximumRetryAttempts": 2}, 0, [shard_line(1, 1, exhausted=1), "calls 3", "done"], f.port, [record(1)])
    gaps = [b - a for a, b in zip(begun, begun[1:])]
    t.same("delays of at least 250 and 500 ms", [True, True], [gaps[0] >= 0.249, gaps[1] >= 0.499])


def partial_failure(t):
    f = t.function(each(failed("107", "104")))
    t.run(STREAM | ITEM_FAILURES, 0, [shard_line(8, 8, succeeded=8), "calls 2", "done"], f.port, [record(n) for n in range(101, 109)])
    t.same("calls", [[str(n) for n in range(101, 109)], [str(n) for n in range(104, 109)]], f.names())


def bisect_item_failures(t):
    f = t.function(lambda event, number: failed("1") if "1" in [name_of(r) for r in event["Records"]] else OK)
    mapping = STREAM | ITEM_FAILURES | {"BisectBatchOnFunctionError": True, "MaximumRetryAttempts": 0}
    t.run(mapping, 0, [shard_line(4, 4, succeeded=3, exhausted=1), "calls 5", "done"], f.port, [record(n) for n in range(1, 5)])
    t.same("calls", [list("1234"), list("12"), ["1"], ["2"], list("34")], f.names())


def answer_bodies(t):
    good = [b'{"batchItemFailures":null}', b'{"batchItemFailures":[]}', b"{}", b"null", b"", b'{"other":1}']
    bad = [b'{"batchItemFailures":[{"itemIdentifier":""}]}', b'{"batchItemFailures":[{"itemIdentifier":"9"}]}', b"7",
           b'{"batchItemFailures":[{"itemIdentifier":7}]}', b'{"batchItemFailures":{}}', b"[]",
           b'{"batchItemFailures":[{}]}', b"[" * 200 + b"]" * 200]
    mapping = STREAM | ITEM_FAILURES | {"MaximumRetryAttempts": 0}
    for body in good:
        f = t.function(always((200, False, body)))
        t.run(mapping, 0, [shard_line(1, 1, succeeded=1), "calls 1", "done"], f.port, [record(1)])
    for body in bad:
        f = t.function(always((200, False, body)))
        t.run(mapping, 0, [shard_line(1, 1, exhausted=1), "calls 1", "done"], f.port, [record(1)])


def two_lanes(t):
    mapping = STREAM | {"ParallelizationFactor": 2, "MaximumRetryAttempts": 1}
    f = t.function(failing("1"))
    t.run(mapping, 0, [shard_line(2, 2, succeeded=1, exhausted=1), "calls 3", "done"], f.port, [record(1, "1"), record(2, "2")])


def record_age(t):
    old = int(time.time() * 1000) - 120_000
    t.in_folder([record(1, arrival=old)])
    t.run(STREAM | {"MaximumRecordAgeInSeconds": 60} | DESTINATION, 0, [shard_line(1, 1, expired=1), "calls 0", "done"])
    line = json.loads(payloads(t.folder / "failures.esm")[0])
    t.same("condition", "RecordAgeExceeded", line["requestContext"]["condition"])


def bad_inputs(t):
    t.run(STREAM, 0, [shard_line(2, 2, succeeded=2), "calls 1", "done"], lines_in=[record(99), record(100)])
    t.run(STREAM, 3, [shard_line(1, 1, succeeded=1), "calls 1", "bad line 2: Backwards kept 100 given 99"],
          lines_in=[record(100), record(99)])
    t.run(STREAM, 3, [shard_line(2, 2, succeeded=2), "calls 1", "bad line 3: NotJson"],
          lines_in=[record(1), record(2), '{"shardId":"sh'])
    t.run(STREAM, 3, ["calls 0", "bad line 1: Missing data"],
          lines_in=['{"shardId":"shardId-000000000000","sequenceNumber":"1","partitionKey":"1","approximateArrivalTimestamp":0}'])
    t.run(STREAM, 3, ["calls 0", "bad line 1: BadField data"], lines_in=[record(1).replace("SGVsbG8=", "!")])
    t.run(STREAM, 3, ["calls 0", "bad line 1: LineTooLong"], lines_in=["x" * 8_388_609])


def filters(t):
    def by(pattern, data):
        f = t.function(always(OK))
        mapping = STREAM | {"FilterCriteria": {"Filters": [{"Pattern": json.dumps(pattern)}]}}
        return f, mapping, [record(1, data=data)]

    kept, dropped = shard_line(1, 1, succeeded=1), shard_line(1, 1, filtered=1)
    rows = [
        ({"data": {"n": [1]}}, b"Hello", False),
        ({"data": {"n": [1]}}, b'{"n":1}', True),
        ({"partitionKey": ["1"]}, b"Hello", True),
        ({"data": {"a": [{"prefix": "x"}]}}, b'{"a":["no","xy"]}', True),
        ({"data": {"a": [{"exists": False}]}}, b'{"a":{}}', True),
        ({"data": {"a": [{"exists": True}]}}, b'{"a":{}}', False),
        ({"data": {"a": [{"anything-but": [1]}]}}, b'{"a":1.5}', True),
        ({"data": {"a": [{"numeric": [">", 0, "<=", 5]}]}}, b'{"a":5}', True),
        ({"data": {"$or": [{"a": [1]}, {"b": [2]}]}}, b'{"b":2}', True),
        ({"data": {"a": {"b": [{"exists": False}]}}}, b'{"a":7}', True),
        ({"data": {"a": [{"equals-ignore-case": "Ab"}]}}, b'{"a":"aB"}', True),
        ({"data": {"a": [1]}}, b"[" * 200 + b"]" * 200, False),
    ]
    for pattern, data, passes in rows:
        f, mapping, lines = by(pattern, data)
        t.run(mapping, 0, [kept if passes else dropped, f"calls {int(passes)}", "done"], f.port, lines)


def payload_limit(t):
    f = t.function(always(OK))
    lines = [record(n, data=bytes(300)) for n in range(10000, 20000)]
    t.run(STREAM | {"BatchSize": 10000}, 0, [shard_line(10000, 10000, succeeded=10000), "calls 2", "done"], f.port, lines,
          options=["--read-first"])
    t.same("batches", [7844, 2156], [len(event["Records"]) for event in f.events])


def limits(t):
    f = t.function(always(OK))
    shards = [shard_line(1, 1, succeeded=1, shard=n) for n in range(16)]
    t.run(STREAM, 10, [*shards, "calls 16", "limit shards"], f.port, [record(1, shard=n) for n in range(17)])
    shards = [shard_line(1, 1, succeeded=1, shard=n) for n in range(6)]
    t.run(STREAM | {"ParallelizationFactor": 10}, 10, [*shards, "calls 6", "limit lanes"], f.port, [record(1, shard=n) for n in range(7)])


def at_timestamp(t):
    mapping = STREAM | {"StartingPosition": "AT_TIMESTAMP", "StartingPositionTimestamp": 1}
    lines = [record(1, arrival=500), record(2, arrival=1000), record(3, arrival=900)]
    t.run(mapping, 0, [shard_line(2, 2, succeeded=2), "calls 1", "done"], lines_in=lines)


def throttled_call(t):
    f = t.function(each((429, False, b"")))
    t.run(STREAM | {"MaximumRetryAttempts": 0}, 0, [shard_line(1, 1, succeeded=1), "calls 2", "done"], f.port, [record(1)])


def refused_words(t):
    for words in (["run"], ["run", "--config", "C", "--config", "C"], ["run", "--config", "C", "--"],
                  ["run", "--read-first", "--config"], ["run", "--config", "C", "--calls", "01"], [], ["walk"]):
        t.same(f"{words}", ("bad words\n", 2), t.ran(words))
    t.run(STREAM | {"BatchSize": 0}, 9, ["bad parameter BatchSize"], lines_in=[])
    t.run(STREAM | {"StartingPosition": "LATEST"}, 9, ["bad parameter StartingPosition"], lines_in=[])
    t.run(STREAM | {"Enabled": False}, 9, ["disabled mapping"], lines_in=[])
    t.said(["run", "--config", "{"], 9, ["bad parameter Body"], lines_in=[])


# folders


def budget_and_restart(t):
    f = t.function(failing("5"))
    mapping = STREAM | {"BisectBatchOnFunctionError": True, "MaximumRetryAttempts": 0}
    t.in_folder([record(n) for n in range(1, 9)])
    t.run(mapping, 1, [shard_line(8, 4, succeeded=4), "calls 3", "calls spent"], f.port, options=("--calls", "3"))
    t.run(mapping, 0, [shard_line(8, 8, succeeded=7, exhausted=1), "calls 5", "done"], f.port)
    t.same("calls", [list("5678"), list("56"), ["5"], ["6"], list("78")], f.names()[3:])
    t.said("compact", 0, ["compacted 4 to 2", "done"])
    t.run(mapping, 0, [shard_line(8, 8, succeeded=7, exhausted=1), "calls 0", "done"], f.port)
    t.said("show", 0, ["shard shardId-000000000000 given 8 frontier 8", "done"])


def budget_then_finish(t):
    t.in_folder([record(n) for n in range(1, 4)])
    mapping = STREAM | {"BatchSize": 1}
    t.run(mapping, 1, [shard_line(3, 2, succeeded=2), "calls 2", "calls spent"], options=("--calls", "2"))
    t.run(mapping, 0, [shard_line(3, 3, succeeded=3), "calls 1", "done"])
    t.said("show", 0, ["shard shardId-000000000000 given 3 frontier 3", "done"])


def tries_outlast(t):
    mapping = STREAM | {"MaximumRetryAttempts": 2}
    f = t.function(always(ERROR))
    t.in_folder([record(1)])
    t.run(mapping, 1, [shard_line(1, 0), "calls 2", "calls spent"], f.port, options=("--calls", "2"))
    t.same("journal", 90, (t.folder / "journal.esm").stat().st_size)
    t.feed([record(7)])
    t.run(mapping, 8, ["calls 0", "stream changed shardId-000000000000 place 0 kept 1 given 7"], f.port)
    t.feed([record(1)])
    t.said("compact", 0, ["compacted 2 to 1", "done"])
    t.run(mapping, 0, [shard_line(1, 1, exhausted=1), "calls 1", "done"], f.port)


def changed_stream(t):
    t.in_folder([record(1)])
    t.run(STREAM, 0, [shard_line(1, 1, succeeded=1), "calls 1", "done"])
    t.same("journal", 52, (t.folder / "journal.esm").stat().st_size)
    t.feed([record(7)])
    t.run(STREAM, 8, ["calls 0", "stream changed shardId-000000000000 place 0 kept 1 given 7"])


def tumbling_windows(t):
    answers = [(200, False, b'{"state":{"n":2}}'), OK, (200, False, b'{"state":{"n":1}}'), OK]
    mapping = STREAM | {"TumblingWindowInSeconds": 120}
    lines = [record(1, arrival=1000), record(2, arrival=119999), record(3, arrival=120000)]
    f = t.function(each(*answers))
    t.run(mapping, 0, [shard_line(3, 3, succeeded=3), "calls 4", "done"], f.port, lines)
    t.same("calls", [["1", "2"], [], ["3"], []], f.names())
    t.same("states", [{}, {"n": 2}, {}, {"n": 1}], [event["state"] for event in f.events])
    t.in_folder(lines)
    f = t.function(each(answers[0]))
    t.run(mapping, 1, [shard_line(3, 2, succeeded=2), "calls 1", "calls spent"], f.port, options=("--calls", "1"))
    t.said("compact", 0, ["compacted 1 to 2", "done"])
    f = t.function(each(OK, answers[2], OK))
    t.run(mapping, 0, [shard_line(3, 3, succeeded=3), "calls 3", "done"], f.port)
    t.same("states after the restart", [{"n": 2}, {}, {"n": 1}], [event["state"] for event in f.events])


def files(t):
    t.in_folder([record(1)])
    t.said("init", 8, ["not empty journal.esm 18"])
    t.said("show", 0, ["done"])
    t.said("compact", 0, ["compacted 0 to 0", "done"])
    t.same("spare", "45534d4a3030303200000000000000020100", (t.folder / "spare.esm").read_bytes().hex())


def migrate_once(t):
    t.in_folder([record(1)])
    t.run(STREAM, 0, [shard_line(1, 1, succeeded=1), "calls 1", "done"])
    for name in ("journal.esm", "spare.esm"):
        data = (t.folder / name).read_bytes()
        (t.folder / name).write_bytes(b"ESMJ0001" + data[8:])
    t.run(STREAM, 8, ["not a journal journal.esm"])
    t.said("migrate", 0, ["migrated 1", "done"])
    t.run(STREAM, 0, [shard_line(1, 1, succeeded=1), "calls 0", "done"])
    t.said("migrate", 0, ["version 2", "done"])


def cut_journals(t):
    t.in_folder([record(1)])
    spare = (t.folder / "spare.esm").read_bytes()
    t.run(STREAM, 0, [shard_line(1, 1, succeeded=1), "calls 1", "done"])
    whole = (t.folder / "journal.esm").read_bytes()
    for length in (0, 1, 7, 8, 16, 17, 18, 22, 23, 51, 52):
        (t.folder / "journal.esm").write_bytes(whole[:length])
        (t.folder / "spare.esm").write_bytes(spare)
        if length < 17:
            t.run(STREAM, 8, ["not a journal journal.esm"])
        elif length < 52:
            t.run(STREAM, 8, [f"damaged journal.esm {length}"])
        else:
            t.run(STREAM, 0, [shard_line(1, 1, succeeded=1), "calls 0", "done"])
    (t.folder / "journal.esm").write_bytes(whole[:17] + b"\x01" + struct.pack(">I", 16_777_217) + b"\x00")
    t.run(STREAM, 8, ["damaged journal.esm 18"])


def poison(t):
    lines = [record(1, "1"), record(2, "bad"), record(3, "1")]
    functions = 'poison:"partitionKey":"bad"'
    t.run(STREAM | {"BatchSize": 1, "MaximumRetryAttempts": 1}, 0, [shard_line(3, 3, succeeded=2, exhausted=1), "calls 4", "done"], functions, lines)
    t.run(STREAM | {"MaximumRetryAttempts": 1}, 0, [shard_line(3, 3, exhausted=3), "calls 2", "done"], functions, lines)


# queues


def queue_line(messages, deleted, succeeded, filtered=0):
    return f"queue messages {messages} deleted {deleted} succeeded {succeeded} filtered {filtered}"


def queues(t):
    t.run(QUEUE, 0, [queue_line(0, 0, 0), "calls 0", "done"], lines_in=[])
    t.run(QUEUE, 0, [queue_line(3, 3, 3), "calls 1", "done"], lines_in=[message(n) for n in "abc"])
    t.run(QUEUE, 3, [queue_line(1, 1, 1), "calls 1", "bad line 2: Repeated a"], lines_in=[message("a"), message("a")])
    t.run(QUEUE | {"BatchSize": 11}, 9, ["bad parameter MaximumBatchingWindowInSeconds"], lines_in=[])
    f = t.function(each(failed("b")))
    t.run(QUEUE | ITEM_FAILURES, 0, [queue_line(3, 3, 3), "calls 2", "done"], f.port, [message(n) for n in "abc"], ("--visibility", "1"))
    t.same("calls", [["a", "b", "c"], ["b"]], f.names())
    t.same("receives", "2", f.events[1]["Records"][0]["attributes"]["ApproximateReceiveCount"])


def queue_restart(t):
    f = t.function(failing("b"))
    mapping = QUEUE | {"BatchSize": 1}
    t.in_folder([message(n) for n in "abc"])
    t.run(mapping, 1, [queue_line(3, 2, 2), "calls 3", "calls spent"], f.port, options=("--calls", "3", "--visibility", "1"))
    t.said("show", 0, ["queue deleted 2", "done"])
    f = t.function(always(OK))
    t.run(mapping, 0, [queue_line(3, 3, 3), "calls 1", "done"], f.port)
    t.same("calls", [["b"]], f.names())
    t.feed([message(n) for n in "axc"])
    t.run(mapping, 8, [queue_line(0, 0, 0), "calls 0", "stream changed queue place 1 kept b given x"], f.port)


def fifo(t):
    f = t.function(always(OK))
    lines = [message("a", group="A"), message("b", group="B"), message("c", group="A")]
    t.run(FIFO | {"BatchSize": 1}, 0, [queue_line(3, 3, 3), "calls 3", "done"], f.port, lines)
    order = [names[0] for names in f.names()]
    t.same("the group's order", True, order.index("a") < order.index("c"))


# killed


def killed(t, kills):
    """A run over a folder is killed at random moments, and begun again."""
    random.seed(1)
    count = 60 * kills  # more than are called between two kills
    lines = [record(n, key=f"k{n % 50}", shard=n % 3) for n in range(1, count + 1)]
    t.in_folder(lines)
    numbers = {(n % 3, (n - 1) // 3): str(n) for n in range(1, count + 1)}
    journal = t.folder / "journal.esm"
    had, again = set(), []

    def answer(event, number):
        for item in event["Records"]:
            if name_of(item) in had:
                again.append(name_of(item))
        time.sleep(random.random() * 0.002)
        return ERROR if random.random() < 0.4 else OK

    def before():
        had.clear()
        had.update(numbers[key] for key in fates(journal))

    f = t.function(answer)
    mapping = STREAM | DESTINATION | {"ParallelizationFactor": 3, "BatchSize": 3, "MaximumRetryAttempts": 1,
                                      "BisectBatchOnFunctionError": True}
    words = ["run", "--config", json.dumps(mapping)]
    amid = t.killed_often(words, f.port, kills, before)
    t.same("status", 0, t.ran(words, f.port, timeout=300)[1])
    named = fates(journal)
    t.same("records with a fate", count, len(named))
    t.same("records with two fates", [], [key for key, many in named.items() if len(many) != 1])
    t.same("records called though they had a fate", [], again)
    exhausted = {numbers[key] for key, many in named.items() if many == [4]}
    lost = {json.loads(line)["KinesisBatchInfo"]["startSequenceNumber"] for line in payloads(t.folder / "failures.esm")}
    covered = {n for line in map(json.loads, payloads(t.folder / "failures.esm")) for n in within(line, numbers)}
    t.same("exhausted records without a failure line", set(), exhausted - covered - lost)
    print(f"   {amid} of {kills} kills amid a run, {len(f.events)} calls, {len(exhausted)} records exhausted")


def within(line, numbers):
    """The sequence numbers of a failure line's shard from its first to its last."""
    batch = line["KinesisBatchInfo"]
    shard = int(batch["shardId"][-12:])
    first, last = int(batch["startSequenceNumber"]), int(batch["endSequenceNumber"])
    return {text for (s, _), text in numbers.items() if s == shard and first <= int(text) <= last}


CASES = [
    empty_input, one_record, poison, bisect_eight, exhaust_eight, retry_delays, partial_failure, bisect_item_failures,
    answer_bodies, two_lanes, record_age, bad_inputs, filters, payload_limit, limits, at_timestamp, throttled_call,
    refused_words, budget_and_restart, budget_then_finish, tries_outlast, changed_stream, tumbling_windows, files,
    migrate_once, cut_journals, queues, queue_restart, fifo, *try_outside.CASES,
    *try_replay.CASES,
    *try_redrive.CASES,
    *try_from_aws.CASES,
]
KILLED = [
    killed,
    try_replay.replay_killed,
    try_redrive.redrive_killed,
]


def tried(program, name, case):
    """What came of the case, in a word, and what is to be told of it."""
    trial = Trial(program, name)
    try:
        try:
            case(trial)
        finally:
            trial.close()
    except Skipped as why:
        return "skip ", [str(why)]
    except Exception as error:  # what throws or does not end in time has failed, and the next case is tried
        trial.wrong.append(f"{name}: {type(error).__name__}: {error}"[:400])
    return "WRONG" if trial.wrong else "ok   ", trial.wrong


def main():
    parser = argparse.ArgumentParser(description=__doc__.split("\n")[0])
    parser.add_argument("program", type=shlex.split)
    parser.add_argument("--only", action="append", default=[])
    parser.add_argument("--quick", action="store_true")
    parser.add_argument("--kills", type=int, default=0)
    words = parser.parse_args()
    cases = [(case.__name__, case) for case in CASES if not (words.quick and case in try_outside.SLOW)]
    if words.kills:
        cases += [(case.__name__, lambda t, case=case: case(t, words.kills)) for case in KILLED]
    if unknown := {*words.only} - {name for name, _ in cases}:
        parser.error(f"no case {', '.join(sorted(unknown))}")
    came = []
    for name, case in cases:
        if words.only and name not in words.only:
            continue
        what, lines = tried(words.program, name, case)
        came.append(what)
        print(what, name, flush=True)
        for line in lines:
            print("  ", line)
    print(f"{came.count('ok   ')} passed, {came.count('WRONG')} failed")
    return 1 if "WRONG" in came else 0


if __name__ == "__main__":
    sys.exit(main())
