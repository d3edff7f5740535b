"""Cases of `try_program.py` on `replay`: what was given up is called again, once, also over kills and files that fail."""

import json
import random
import struct
import time

from trial import (
    DESTINATION, ERROR, ITEM_FAILURES, OK, QUEUE, STREAM, always, each, failed, failing, fates, name_of, payloads, places,
    record, shard_line,
)

ONCE = STREAM | DESTINATION | {"MaximumRetryAttempts": 0}
HALVED = ONCE | {"BisectBatchOnFunctionError": True}
SHOWN = ["shard shardId-000000000000 given 8 frontier 8", "done"]


def replay(t, mapping, status, lines, functions="ok", options=(), **how):
    t.said(["replay", "--config", json.dumps(mapping), *options], status, lines, functions, **how)


def told(named, replayed, left, calls, last="done"):
    return [f"replay named {named} replayed {replayed} left {left}", f"calls {calls}", last]


def replays(path):
    """Of each shard and place how often a mapping's journal says that it was replayed."""
    named = {}
    for payload in payloads(path):
        if payload[0] == 7:
            shard = struct.unpack(">Q", payload[1:9])[0]
            for place in places(payload, 17):
                named[(shard, place)] = named.get((shard, place), 0) + 1
    return named


def given_up(t, count=8):
    """A folder in which so many records were given up, and the bytes of its failure file."""
    t.in_folder([record(n) for n in range(1, count + 1)])
    t.run(ONCE, 0, [shard_line(count, count, exhausted=count), "calls 1", "done"], t.function(always(ERROR)).port)
    return (t.folder / "failures.esm").read_bytes()


def stays(t, lines):
    """Fates and failure lines are those before the replay, and a run makes no call."""
    t.same("failure file", lines, (t.folder / "failures.esm").read_bytes())
    t.same("fates", {(0, place): [4] for place in range(8)}, fates(t.folder / "journal.esm"))
    t.said("show", 0, SHOWN)
    t.run(ONCE, 0, [shard_line(8, 8, exhausted=8), "calls 0", "done"])


def replay_eight(t):
    lines = given_up(t)
    f = t.function(always(OK))
    replay(t, ONCE, 0, told(8, 8, 0, 1), f.port)
    t.same("calls", [list("12345678")], f.names())
    t.same("replayed", {(0, place): 1 for place in range(8)}, replays(t.folder / "journal.esm"))
    replay(t, ONCE, 0, told(0, 0, 0, 0), f.port)
    stays(t, lines)
    t.said("compact", 0, ["compacted 2 to 2", "done"])
    replay(t, ONCE, 0, told(0, 0, 0, 0), f.port)
    t.same("calls", 1, len(f.events))


def replay_edges(t):
    lines = given_up(t)
    replay(t, ONCE, 1, told(8, 0, 8, 0, "calls spent"), options=["--calls", "0"])
    f = t.function(failing("5"))
    replay(t, HALVED, 0, told(8, 7, 1, 7), f.port)
    t.same("calls", [list("12345678"), list("1234"), list("5678"), list("56"), ["5"], ["6"], list("78")], f.names())
    replay(t, ONCE, 0, told(1, 0, 1, 1), f.port)
    stays(t, lines)
    replay(t, ONCE, 0, told(1, 1, 0, 1))
    (t.folder / "failures.esm").write_bytes(lines[:-1] + b"\x01\x00\x00\x00\x01x\x00")
    replay(t, ONCE, 8, ["bad payload failures.esm 1"])
    replay(t, QUEUE, 9, ["bad parameter EventSourceArn"])
    replay(t, ONCE | {"StartingPosition": "LATEST", "Enabled": False}, 9, ["bad parameter StartingPosition"])
    replay(t, ONCE | {"Enabled": False}, 9, ["disabled mapping"])


def replay_answers(t):
    """What an answer reports, or what was not run, is left."""
    given_up(t)
    f = t.function(each((429, False, b""), failed("6", "5")))
    mapping = ONCE | ITEM_FAILURES
    replay(t, mapping, 0, told(8, 0, 8, 1), f.port)
    replay(t, mapping, 0, told(8, 4, 4, 1), f.port)
    replay(t, mapping | {"BatchSize": 3}, 1, told(4, 3, 1, 1, "calls spent"), f.port, ["--calls", "1"])
    replay(t, mapping, 0, told(1, 1, 0, 1), f.port)
    t.same("calls", [list("12345678"), list("12345678"), list("567"), ["8"]], f.names())


def replay_inputs(t):
    """A bad line, a changed record; what came before is replayed."""
    given_up(t)
    t.feed([record(n) for n in range(1, 8)] + [record(9)])
    replay(t, ONCE, 8, told(0, 0, 0, 0, "stream changed shardId-000000000000 place 7 kept 8 given 9"))
    t.feed([record(n) for n in range(1, 5)] + ["x"])
    replay(t, ONCE, 3, told(4, 4, 0, 1, "bad line 5: NotJson"))
    t.feed([record(n) for n in range(1, 9)])
    replay(t, ONCE, 0, told(4, 4, 0, 1))


def replay_of_table(t):
    """The failure lines of a table's stream are none of a stream's."""
    source = "arn:aws:dynamodb:us-east-1:123456789012:table/tab/stream/1"
    change = {"shardId": "shardId-000000000000", "approximateArrivalTimestamp": 0, "eventID": "e1", "eventName": "INSERT",
              "dynamodb": {"Keys": {"id": {"S": "a"}}, "SequenceNumber": "1", "SizeBytes": 3, "StreamViewType": "KEYS_ONLY"}}
    t.in_folder([json.dumps(change)])
    t.said(["ddb", "--config", json.dumps(ONCE | {"EventSourceArn": source})], 0,
           [shard_line(1, 1, exhausted=1), "calls 1", "done"], "poison:aws:dynamodb")
    replay(t, ONCE, 8, ["bad payload failures.esm 0"])
    replay(t, ONCE | {"EventSourceArn": source}, 9, ["bad parameter EventSourceArn"])


def replay_words(t):
    config = ["replay", "--config", json.dumps(STREAM)]
    for words in (["replay"], [*config, "--config", "C"], [*config, "--calls", "01"], [*config, "--calls", "1", "--calls=1"],
                  [*config, "--read-first"], [*config, "--visibility", "1"], [*config, "--max-receives", "1"],
                  [*config, "--timeout", "0"], [*config, "C"], [*config, "--"],
                  ["replay", "--mapping", "00000000-0000-3000-8000-000000000000"]):
        t.same(f"{words}", ("bad words\n", 2), t.ran(words))
    t.said([*config, "--calls=10000000", "--timeout=900"], 0, told(0, 0, 0, 0))


def closed_by_replay(t):
    """Closed streams: the report has no reader, and what was replayed stands in the journal all the same."""
    rows = [("exec >&-", 5, []), ("exec 2>&-", 0, told(8, 8, 0, 1)), ("exec <&-", 0, told(8, 8, 0, 1)),
            ("exec <&- >&- 2>&-", 5, []), ("exec > /dev/full", 5, [])]
    for shell, status, lines in rows:
        failures = given_up(t)
        replay(t, ONCE, status, lines, shell=shell)
        t.same(f"replayed behind {shell}", {(0, place): 1 for place in range(8)}, replays(t.folder / "journal.esm"))
        stays(t, failures)


def replay_unwritable(t):
    """A journal that cannot be written: nothing counts as replayed, and the next replay calls all of it."""
    failures = given_up(t)
    replay(t, ONCE, 6, told(8, 0, 8, 1, "disk fault"), shell="trap '' XFSZ; ulimit -f 0")
    t.same("replayed", {}, replays(t.folder / "journal.esm"))
    stays(t, failures)
    replay(t, ONCE, 0, told(8, 8, 0, 1))
    (t.folder / "journal.esm").rename(t.folder / "elsewhere")
    replay(t, ONCE, 8, ["not a journal journal.esm"])


def replay_timeout(t):
    """A call that takes too long is lost, and what it held is left."""
    given_up(t)
    f = t.function(lambda event, number: (time.sleep(3), OK)[1] if number == 0 else OK)
    replay(t, ONCE, 0, told(8, 0, 8, 1), f.port, ["--timeout", "1"])
    replay(t, ONCE, 0, told(8, 8, 0, 1), f.port, ["--timeout", "60"])


def replay_killed(t, kills):
    """A replay is killed at random moments, and begun again: no record is called that was replayed."""
    random.seed(2)
    count = 120 * kills  # more than are called between two kills
    lines = [record(n, key=f"k{n % 50}", shard=n % 3) for n in range(1, count + 1)]
    t.in_folder(lines)
    numbers = {(n % 3, (n - 1) // 3): str(n) for n in range(1, count + 1)}
    journal, failures = t.folder / "journal.esm", t.folder / "failures.esm"
    t.same("status of the run", 0, t.ran(["run", "--config", json.dumps(ONCE), "--read-first"], "poison:kinesis", timeout=300)[1])
    lost, had, again = failures.read_bytes(), set(), []

    def answer(event, number):
        again.extend(name for name in map(name_of, event["Records"]) if name in had)
        time.sleep(random.random() * 0.002)
        return ERROR if random.random() < 0.2 else OK

    def before():
        had.clear()
        had.update(numbers[key] for key in replays(journal))

    f = t.function(answer)
    words = ["replay", "--config", json.dumps(HALVED | {"BatchSize": 3})]
    amid = t.killed_often(words, f.port, kills, before)
    left = count - len(had)
    f.answer = always(OK)
    t.same("last replay", [f"replay named {left} replayed {left} left 0"], t.ran(words, f.port, timeout=300)[0].splitlines()[:1])
    t.same("records replayed", {key: 1 for key in numbers}, replays(journal))
    t.same("records called though they were replayed", [], again)
    t.same("fates", {key: [4] for key in numbers}, fates(journal))
    t.same("failure file", lost, failures.read_bytes())
    print(f"   {amid} of {kills} kills amid a replay, {len(f.events)} calls, {left} records replayed by the last one")


CASES = [
    replay_eight, replay_edges, replay_answers, replay_inputs, replay_of_table, replay_words, closed_by_replay,
    replay_unwritable, replay_timeout,
]
