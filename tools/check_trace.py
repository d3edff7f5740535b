#!/usr/bin/env python3
"""Checks a run that was told with `--trace`, by rules of its own: nothing here is shared with the program.

    tools/check_trace.py MAPPING INPUT [--visibility N] [--found N] < OUTPUT

MAPPING and INPUT are files, OUTPUT is what `run`, `ddb`, `redrive` or `replay` printed. The rules: a line has the form of its
entry and is no older than the one before it; a record comes once, and has at most one fate; no call holds a record of which a
fate stands before, nor, but in a replay, a key of which an earlier record, outside the batch, is without a fate; no two calls
of a lane overlap, each ends, and what comes of it stands behind its end; no batch is above the batch size; what is called again
waited its delay, a message the `--visibility`; the report is that of the trace. Fates that a run found in its journal stand in
no trace: what the report has besides must be of records that the trace does not name. How many is told; `--found` asks for so
many, 0 where no run was before. The exit status is 0, 1 where a line breaks a rule, and it is named, or 2 for wrong words.
"""

import argparse
import array
import base64
import collections
import json
import re
import sys
from types import SimpleNamespace

TOP = 253402300799999  # the last moment
FATES = ["succeeded", "filtered", "expired", "exhausted"]
FORMS = {
    "came": "at entry shard first count", "began": "at entry shard lane places( closing)?",
    "ended": "at entry shard lane (status error body|garbled|lost)", "closed": "at entry shard lane window",
    "gave": "at entry shard( lane)? places fate( line)?( window state)?", "tried": "at entry shard lane places tries( closing)?",
    "replayed": "at entry shard places", "shut": "at entry",
}
IS = dict.fromkeys("at first count lane closing window tries status".split(), lambda it: type(it) is int and 0 <= it <= TOP)
IS |= dict.fromkeys(["state", "garbled", "body"], lambda it: base64.b64encode(base64.b64decode(it, validate=True)).decode() == it)
IS |= {"places": lambda its: type(its) is list and all(map(IS["at"], its)) and len({*its}) == len(its), "entry": FORMS.__contains__,
       "shard": lambda it: re.fullmatch(r"queue|shardId-\d{12}", it), "fate": FATES.__contains__,
       "line": lambda it: type(it) is str, "error": lambda it: type(it) is bool, "lost": lambda it: it is True}
KEYS = {"kinesis": lambda it: it["partitionKey"], "dynamodb": lambda it: json.dumps(it["dynamodb"]["Keys"], sort_keys=True),
        "sqs": lambda it: it["messageId"], "fifo": lambda it: it["messageGroupId"]}
REPORT = {"queue": "(queue) messages N deleted N succeeded N filtered N(?: moved N)?", "replay": "(replay) named N replayed N left N",
          "shard": r"shard (shardId-\d{12}) records N checkpoint N succeeded N filtered N expired N exhausted N"}
LAST = "done|calls spent|(input|disk|destination) fault|(bad line|limit|stream changed) .+"
ALONE = "bad words|(unknown|disabled) mapping|disk fault|(bad parameter|not a journal|damaged|bad payload) .+"


class Broken(Exception):
    """The number of the line that breaks a rule, and how."""


def need(number, holds, text):
    if not holds:
        raise Broken(number, text)


class Check:
    """Of a shard, by place: the record's key, and that key's record before it; the last call that held it; when it shows again;
    the line of its fate, or below zero, where it must have been found, the line that asks for it. Tails: each key's last."""

    def __init__(self, mapping, visibility, lines):
        source = self.source = mapping["EventSourceArn"].split(":")[2]
        self.size = mapping.get("BatchSize") or (10 if source == "sqs" else 100)
        self.hides, self.last, self.calls, self.replay, self.tails = visibility * 1000 * (source == "sqs"), 0, 0, False, {}
        self.shards = collections.defaultdict(lambda: SimpleNamespace(key=array.array("q"), came=0, counts=collections.Counter()))
        self.lanes = collections.defaultdict(lambda: SimpleNamespace(running=0, end=0, wait=0, row=0, failed=0))
        key_of = KEYS["fifo" if source == "sqs" and mapping["EventSourceArn"].endswith(".fifo") else source]
        start, keys = (mapping.get("StartingPositionTimestamp") or 0) * 1000, {}
        try:
            for line in filter(bytes.strip, lines):
                it = json.loads(line.decode())
                name, key = "queue" if source == "sqs" else it["shardId"], key_of(it)
                if name in self.shards or source == "sqs" or it["approximateArrivalTimestamp"] >= start:
                    self.shards[name].key.append(keys.setdefault((name, key), len(keys)))
        except (ValueError, KeyError, TypeError, RecursionError):
            pass  # the input ends here
        for it in self.shards.values():
            it.before, it.call, it.fate, it.shows = (array.array("q", bytes(8 * len(it.key))) for _ in range(4))

    def entry(self, number, line):
        try:
            it = json.loads(line)
            good = re.fullmatch(FORMS[it["entry"]], " ".join(it)) and all(IS[name](value) for name, value in it.items())
            good = good and json.dumps(it, separators=(",", ":"), ensure_ascii=False) == line
        except (ValueError, KeyError, TypeError, RecursionError):
            good = False
        good = good and (it["entry"] != "began" or bool(it["places"]) != ("closing" in it))  # a final call has no places
        need(number, good, "it has not the form of an entry")
        need(number, it["at"] >= self.last, f"the line before it is of moment {self.last}")
        self.last, kind, places = it["at"], it["entry"], it.get("places", [])
        shard = self.shards.get(it.get("shard"))
        need(number, shard or kind == "shut", "the input has no record of its shard")
        for place in places:
            need(number, place < (len(shard.key) if self.replay else shard.came), f"record {place} has not come")
            need(-shard.fate[place], shard.fate[place] >= 0, f"record {place}, of a key of its batch, is without a fate")
            need(number, not shard.fate[place] or kind == "tried", f"record {place} has a fate since line {shard.fate[place]}")
        lane = self.lanes[it.get("shard"), it.get("lane", 0 if kind == "replayed" else None)]
        need(number, kind == "ended" or not lane.running, f"the call of line {lane.running} has not ended")
        getattr(self, "gave" if kind == "replayed" else kind, lambda *_: None)(number, it, places, shard, lane)

    def came(self, number, it, places, shard, lane):
        behind = it["first"] + it["count"]
        good = not self.replay and it["first"] == shard.came < behind <= len(shard.key)
        need(number, good, f"{shard.came} records came before, of {len(shard.key)}")
        for place in range(shard.came, behind):
            shard.before[place] = self.tails.get(shard.key[place], -1)
            self.tails[shard.key[place]] = place
        shard.came = behind

    def began(self, number, it, places, shard, lane):
        self.calls, lane.running = self.calls + 1, number
        need(number, len(places) <= self.size, f"its batch has {len(places)} records, and the batch size is {self.size}")
        wait = max([lane.wait, *(shard.shows[place] for place in places)])
        need(number, it["at"] >= wait, f"what it calls again waits until {wait}")
        for place in places:
            shard.call[place], shard.shows[place] = self.calls, min(it["at"] + self.hides, TOP)
        for place in places * (not self.replay):
            while (before := shard.before[place]) >= 0 and shard.call[before] != self.calls:
                if not shard.fate[before]:
                    need(number, not shard.call[before], f"record {before}, of the key of record {place}, is without a fate")
                    shard.fate[before] = -number
                shard.before[place] = shard.before[before]

    def ended(self, number, it, places, shard, lane):
        need(number, lane.running, "no call of its lane runs")
        lane.running, lane.end, lane.wait, lane.failed, lane.row = 0, it["at"], 0, lane.row + 1, 0
        if it.get("status", 200) != 200:
            self.tried(number, it, places, shard, lane)

    def tried(self, number, it, places, shard, lane):
        """Behind a call that was not run, or counts as a try, the lane waits, longer with each in a row."""
        if self.source != "sqs" and not self.replay:
            lane.row, lane.wait = lane.failed, min(lane.end + min(125 << min(lane.failed, 9), 60000), TOP)

    def gave(self, number, it, places, shard, lane):
        shard.counts[it.get("fate", "replayed")] += len(places)
        for place in places:
            shard.fate[place] = number

    def report(self, number, lines):
        """The report, from this line of the output on. How many fates were found before the run."""
        need(running := min((it.running for it in self.lanes.values() if it.running), default=0), not running, "its call does not end")
        names = ["queue"] if self.source == "sqs" else ["replay"] if self.replay else sorted(it for it in self.shards if self.shards[it].came)
        need(number + min(len(lines), len(names) + 2), len(lines) == len(names) + 2, f"the report has not {len(names) + 2} lines")
        found = sum(self.told(number + at, name, lines[at]) for at, name in enumerate(names))
        need(number + len(names), lines[-2] == f"calls {self.calls}", f"the trace has {self.calls} calls")
        need(number + len(names) + 1, re.fullmatch(LAST, lines[-1]), "it is no last line of a report")
        return found

    def told(self, number, name, line):
        """The line of a shard, a queue or a replay. How many of its fates were found before the run."""
        it = re.fullmatch(REPORT.get(name, REPORT["shard"]).replace("N", r"(\d+)"), line)
        need(number, it and it[1] == name, f"it is not the report's line of {name}")
        came, mark, *fates = (int(value or 0) for value in it.groups()[1:])
        if name == "replay":
            done = sum(it.counts["replayed"] for it in self.shards.values())
            called = sum(bool(call) for it in self.shards.values() for call in it.call)
            need(number, [mark, came - done] == [done, *fates] and came >= called, f"the trace calls {called} records, and replays {done}")
            return 0
        if name == "queue":
            rest = mark - fates[0] - fates[1]
            need(number, it[6] in (None, str(rest)), f"{rest} of the deleted ones are neither succeeded nor filtered")
            mark, fates[2:] = 0, [0, rest]
        shard = self.shards.get(name) or SimpleNamespace(came=0, counts={}, call=[], fate=[])
        need(number, came == shard.came >= mark, f"{shard.came} came")
        more = [told - shard.counts.get(fate, 0) for fate, told in zip(FATES, fates)]
        need(number, min(more) >= 0, f"the trace gives {dict(shard.counts)}")
        asks = sorted(-line for line in shard.fate if line < 0)
        need((asks[sum(more):] or [0])[0], len(asks) <= sum(more), "an earlier record of a key of its batch is without a fate")
        ends, below = name != "queue" and mark < came, [place for place in range(mark) if not shard.fate[place]]
        need(number, not (ends and shard.fate[mark] or any(shard.call[place] for place in below)), "the trace has another checkpoint")
        free = sum(not call and line <= 0 for call, line in zip(shard.call[:came], shard.fate)) - (ends and not shard.call[mark])
        need(number, len(asks) + len(below) <= sum(more) <= free, f"it has {sum(more)} fates more, and {free} at most can be found ones")
        return sum(more)


def mapping(path):
    it = dict(json.load(argparse.FileType("rb")(path)))
    if not re.match("arn:aws:(kinesis|dynamodb|sqs):", str(it.get("EventSourceArn"))) or it.get("StartingPosition") == "LATEST":
        raise argparse.ArgumentTypeError("it has no source, or begins at LATEST, and where that is no file tells")
    return it


parser = argparse.ArgumentParser(usage="tools/check_trace.py MAPPING INPUT [--visibility N] [--found N] < OUTPUT")
parser.add_argument("mapping", type=mapping)
parser.add_argument("input", type=argparse.FileType("rb"))
parser.add_argument("--visibility", type=int, default=30)
parser.add_argument("--found", type=int)
words = parser.parse_args()
*lines, rest = sys.stdin.buffer.read().decode(errors="surrogateescape").split("\n")
check = Check(words.mapping, words.visibility, words.input)
count = max((number for number, line in enumerate(lines, 1) if line.startswith("{")), default=0)
check.replay = lines[count:] and lines[count].startswith("replay ")
try:
    for number, line in enumerate(lines[:count], 1):
        check.entry(number, line)
    need(len(lines) + 1, not rest, "it does not end")
    found = 0 if len(lines) == 1 and re.fullmatch(ALONE, lines[0]) else check.report(count + 1, lines[count:])
    need(len(lines), words.found in (None, found), f"its report has {found} fates that were found before the run")
except Broken as broken:
    sys.exit("line {}: {}".format(*broken.args))
given = sum(sum(it.counts.values()) for it in check.shards.values())
print(f"{count} entries and the report agree: {check.calls} calls, {given} fates given, {found} found before the run")
