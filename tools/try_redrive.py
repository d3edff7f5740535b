"""Cases of `try_program.py` on `redrive`: what was received too often is moved, once, also over kills and files that fail."""

import json
import random
import struct
import time

from trial import (
    ERROR, FIFO, ITEM_FAILURES, OK, QUEUE, STREAM, always, each, failed, failing, fates, message, name_of, payloads,
)

A_LETTER = '{"messageId":"a","body":"x","sentTimestamp":0}'
SECOND = ("--visibility", "1")


def redrive(t, receives, status, lines, functions="ok", lines_in=None, options=SECOND, mapping=QUEUE, **how):
    words = ["redrive", "--config", json.dumps(mapping), "--max-receives", str(receives), *options]
    t.said(words, status, lines, functions, lines_in, **how)


def told(messages, succeeded, moved, calls, last="done", filtered=0):
    deleted = succeeded + moved + filtered
    return [f"queue messages {messages} deleted {deleted} succeeded {succeeded} filtered {filtered} moved {moved}",
            f"calls {calls}", last]


def letters(t):
    """The lines of the dead-letter file."""
    return [line.decode() for line in payloads(t.folder / "failures.esm")]


def with_lines(path, lines):
    """Writes a single journal of these payloads."""
    entries = b"".join(b"\x01" + struct.pack(">I", len(line)) + line for line in lines)
    path.write_bytes(path.read_bytes()[:17] + entries + b"\x00")


def redrive_one(t):
    begun = []
    f = t.function(lambda event, number: (begun.append(time.time()), ERROR)[1])
    t.in_folder([message("a")])
    redrive(t, 2, 0, told(1, 0, 1, 2), f.port)
    t.same("a second between the calls", True, begun[1] - begun[0] >= 0.95)
    t.same("receives", ["1", "2"], [e["Records"][0]["attributes"]["ApproximateReceiveCount"] for e in f.events])
    t.same("dead letters", [A_LETTER], letters(t))
    t.said("failures", 0, [A_LETTER, "done"])
    t.said("show", 0, ["queue deleted 1", "done"])
    redrive(t, 2, 0, told(1, 0, 1, 0), f.port)
    t.run(QUEUE, 0, ["queue messages 1 deleted 1 succeeded 0 filtered 0", "calls 0", "done"], f.port)
    t.said("compact", 0, ["compacted 1 to 1", "done"])
    redrive(t, 2, 0, told(1, 0, 1, 0), f.port)
    t.same("dead letters", [A_LETTER], letters(t))
    t.in_folder([A_LETTER])  # a dead letter is a line of an input
    t.run(QUEUE, 0, ["queue messages 1 deleted 1 succeeded 1 filtered 0", "calls 1", "done"])


def redrive_calls(t):
    """Receives are counted from the beginning of a redrive."""
    f = t.function(always(ERROR))
    t.in_folder([message("a")])
    redrive(t, 2, 1, told(1, 0, 0, 2, "calls spent"), f.port, options=[*SECOND, "--calls", "2"])
    t.same("dead letters", [], letters(t))
    redrive(t, 2, 0, told(1, 0, 1, 2), f.port)
    t.same("dead letters", [A_LETTER], letters(t))


def redrive_answers(t):
    """Messages that are reported, one that does not pass, one that was not run and then succeeds."""
    f = t.function(each((429, False, b""), failed("b"), failed("b")))
    passing = {"FilterCriteria": {"Filters": [{"Pattern": '{"body":["x"]}'}]}}
    t.in_folder([message("a"), message("b"), message("c", "y"), message("d")])
    redrive(t, 3, 0, told(4, 2, 1, 3, filtered=1), f.port, mapping=QUEUE | ITEM_FAILURES | passing)
    t.same("calls", [["a", "b", "d"], ["a", "b", "d"], ["b"]], f.names())
    t.same("dead letters", [A_LETTER.replace('"a"', '"b"')], letters(t))


def redrive_fifo(t):
    f = t.function(failing("a"))
    t.in_folder([message("a", group="A"), message("b", group="A")])
    redrive(t, 1, 0, told(2, 1, 1, 2), f.port, mapping=FIFO | {"BatchSize": 1})
    t.same("calls", [["a"], ["b"]], f.names())
    t.same("dead letters", [A_LETTER[:-1] + ',"messageGroupId":"A"}'], letters(t))


def redrive_found(t):
    t.in_folder([message("a"), message("b")])
    file = t.folder / "failures.esm"
    with_lines(file, [A_LETTER.encode()] * 2)
    redrive(t, 2, 0, told(2, 1, 1, 1))
    t.same("dead letters", [A_LETTER] * 2, letters(t))
    for line in (b"x", b" ", b"", A_LETTER.encode() + b"\n" + A_LETTER.encode()):
        with_lines(file, [A_LETTER.encode(), line])
        redrive(t, 2, 8, ["bad payload failures.esm 1"])
    redrive(t, 2, 9, ["bad parameter EventSourceArn"], mapping=STREAM | {"Enabled": False})
    redrive(t, 2, 9, ["disabled mapping"], mapping=QUEUE | {"Enabled": False})
    with_lines(file, [])
    t.feed([message("a"), message("c")])
    redrive(t, 2, 8, told(0, 0, 0, 0, "stream changed queue place 1 kept b given c"))
    t.feed([message("a"), message("b"), message("a")])
    redrive(t, 2, 3, told(2, 1, 1, 0, "bad line 3: Repeated a"))


def redrive_words(t):
    config = ["redrive", "--config", json.dumps(QUEUE)]
    whole = [*config, "--max-receives", "1"]
    for words in (["redrive"], config, ["redrive", "--max-receives", "1"], [*config, "--max-receives", "0"],
                  [*config, "--max-receives", "1001"], [*config, "--max-receives", "01"], [*whole, "--max-receives", "1"],
                  [*whole, "--config", "C"], [*whole, "--calls", "01"], [*whole, "--visibility", "43201"],
                  [*whole, "--timeout", "0"], [*whole, "--read-first"], [*whole, "C"], [*whole, "--"],
                  ["redrive", "--mapping", "00000000-0000-3000-8000-000000000000", "--max-receives", "1"]):
        t.same(f"{words}", ("bad words\n", 2), t.ran(words))
    t.said([*config, "--max-receives=1000", "--visibility=0", "--calls=0", "--timeout=900"], 0, told(0, 0, 0, 0))


def closed_by_redrive(t):
    """Closed streams: the report has no reader, and what was moved stands in the files all the same."""
    report = told(1, 0, 1, 1)
    rows = [("exec >&-", 5, []), ("exec 2>&-", 0, report), ("exec <&-", 0, report), ("exec <&- >&- 2>&-", 5, []),
            ("exec > /dev/full", 5, [])]
    for shell, status, lines in rows:
        t.in_folder([message("a")])
        redrive(t, 1, status, lines, "poison:", shell=shell)
        t.same(f"dead letters behind {shell}", [A_LETTER], letters(t))
        t.same(f"deletions behind {shell}", {("queue", 0): [4]}, fates(t.folder / "journal.esm"))
        redrive(t, 1, 0, told(1, 0, 1, 0))
    redrive_input(t)


def redrive_input(t):
    """A closed input, where it is standard input, is one that fails."""
    t.folder = None
    redrive(t, 1, 4, told(0, 0, 0, 0, "input fault"), lines_in=[message("a")], shell="exec <&-")


def redrive_unwritable(t):
    """A file that cannot grow: the dead-letter file, then the journal. What is moved is told once."""
    full = "trap '' XFSZ; ulimit -f 8"
    others = [json.dumps({"messageId": f"o{n}", "body": "x", "sentTimestamp": 0}).encode() for n in range(200)]
    t.in_folder([message("a")])
    with_lines(t.folder / "failures.esm", others)  # above 8 blocks of 512 or 1,024 bytes, and the journal is far below
    redrive(t, 1, 7, told(1, 0, 0, 1, "destination fault"), "poison:", shell=full)
    t.same("dead letters", 200, len(letters(t)))
    redrive(t, 1, 0, told(1, 0, 1, 1), "poison:")
    t.same("dead letters", [A_LETTER], letters(t)[200:])
    t.in_folder([message(f"o{n}") for n in range(1200)])
    t.run(QUEUE | {"BatchSize": 1}, 0, ["queue messages 1200 deleted 1200 succeeded 1200 filtered 0", "calls 1200", "done"])
    t.feed([message(f"o{n}") for n in range(1200)] + [message("a")])
    redrive(t, 1, 6, told(1201, 1200, 0, 1, "disk fault"), "poison:", shell=full)
    t.same("dead letters", [A_LETTER], letters(t))
    redrive(t, 1, 0, told(1201, 1200, 1, 0), "poison:")
    t.same("dead letters", [A_LETTER], letters(t))


def redrive_killed(t, kills):
    """A redrive is killed at random moments, and begun again: no id has two lines, and no deleted message is called."""
    random.seed(3)
    names = [f"m{n}" for n in range(120 * kills)]  # more than are called between two kills
    bad = {name for name in names if random.random() < 0.3}
    t.in_folder([message(name) for name in names])
    journal, had, again, received = t.folder / "journal.esm", set(), [], {}

    def answer(event, number):
        batch = [name_of(r) for r in event["Records"]]
        again.extend(name for name in batch if name in had)
        for name in batch:
            received[name] = received.get(name, 0) + 1
        time.sleep(random.random() * 0.002)
        return failed(*(name for name in batch if name in bad))

    early, lines = [], 0

    def before():
        """Each line of the run that ended stands behind two receives in it."""
        nonlocal lines
        added = [json.loads(line)["messageId"] for line in letters(t)[lines:]]
        early.extend(name for name in added if received.get(name, 0) < 2)
        lines += len(added)
        received.clear()
        had.clear()
        had.update(names[place] for _, place in fates(journal))

    f = t.function(answer)
    mapping = QUEUE | ITEM_FAILURES | {"BatchSize": 3}
    words = ["redrive", "--config", json.dumps(mapping), "--max-receives", "2", "--visibility", "0"]
    amid = t.killed_often(words, f.port, kills, before)
    count, good = len(names), len(names) - len(bad)
    report, status = t.ran(words, f.port, timeout=300)
    before()
    t.same("last redrive", (told(count, good, len(bad), 0)[:1], 0), (report.splitlines()[:1], status))
    t.same("dead letters", sorted(bad), sorted(json.loads(line)["messageId"] for line in letters(t)))
    t.same("deletions", {("queue", n): [4 if name in bad else 1] for n, name in enumerate(names)}, fates(journal))
    t.same("messages moved behind fewer receives", [], early)
    t.same("messages called though they were deleted", [], again)
    print(f"   {amid} of {kills} kills amid a redrive, {len(f.events)} calls, {len(bad)} messages moved")


CASES = [
    redrive_one, redrive_calls, redrive_answers, redrive_fifo, redrive_found, redrive_words, closed_by_redrive,
    redrive_unwritable,
]
