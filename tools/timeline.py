#!/usr/bin/env python3
"""Makes one page of a run that was told with `--trace`, to be looked at in a browser.

    tools/timeline.py < OUTPUT > FILE.html

OUTPUT is what `run`, `ddb`, `redrive` or `replay` printed with `--trace`. The page needs nothing besides itself. Its rows are
the lanes of each shard, or a queue's batchers. A bar is a call, and colour and pattern say what became of its records; a dotted
line behind it is a lane that waits until it may call again. Below the lanes of a shard stands how many of its records came, and
its checkpoint in steps. Each bar and mark tells of itself under the pointer. What was halved is not told by a trace: it is what
neither got a fate nor counted a try, of a call that was run.
"""

import base64
import collections
import json
import sys

KINDS = ["succeeded", "called again", "not run", "halved", "given up", "shows again", "left", "not told"]
SHOWN = 160  # characters of an answer's body


def spans(places):
    """Places as text: `0–3, 7`."""
    rows = []
    for place in places:
        if rows and rows[-1][1] == place - 1:
            rows[-1][1] = place
        else:
            rows.append([place, place])
    texts = [str(first) if first == last else f"{first}–{last}" for first, last in rows[:20]]
    return ", ".join(texts) + (", …" if len(rows) > 20 else "")


def answer_of(it):
    """The end of a call, as text."""
    body = base64.b64decode(it.get("body") or it.get("garbled") or "")[:4 * SHOWN].decode(errors="replace")
    body = body[:SHOWN] + ("…" if len(body) > SHOWN else "")
    if "status" in it:
        return f"{it['status']}{', the function’s error' if it['error'] else ''} {body}".strip()
    return "none: lost" if it.get("lost") else f"none whole: {body}"


def found_of(entries, report):
    """Of each shard what must have had its fate before the run: below its checkpoint, and not named. Of a queue, so many."""
    named, found = {(it["shard"], place) for it in entries for place in it.get("places", [])}, {}
    for line in report:
        words = line.split()
        if words[0] == "shard":
            found[words[1]] = {place for place in range(int(words[5])) if (words[1], place) not in named}
        elif words[0] == "queue":
            given = sum(len(it["places"]) for it in entries if it["entry"] == "gave")
            found["queue"] = set(range(given - int(words[4]), 0))
    return found


def read(entries, replay, found):
    """The calls, marks and steps of a trace."""
    calls, marks, steps, last, tries = [], [], collections.defaultdict(list), {}, {}
    came, far, holds = collections.Counter(), collections.Counter(), collections.defaultdict(list)
    done = collections.defaultdict(set, {shard: {*places} for shard, places in found.items()})

    def step(at, shard):
        while shard != "queue" and not replay and far[shard] < came[shard] and far[shard] in done[shard]:
            far[shard] += 1
        reached = len(done[shard]) if shard == "queue" or replay else far[shard]
        if steps[shard][-1:] != [[at, came[shard], reached]]:
            steps[shard].append([at, came[shard], reached])

    for at, it in enumerate(entries):
        entry, shard, places, lane = it["entry"], it.get("shard"), it.get("places", []), it.get("lane", 0 if replay else None)
        call = last.get((shard, lane))
        if entry == "came":
            came[shard] += it["count"]
            step(at, shard)
        elif entry == "began":
            window = it.get("closing")
            key = (shard, places[0] if places else f"window {window}")
            call = {"lane": (shard, lane), "begin": at, "end": None, "places": places, "window": window, "tries": tries.get(key, 0),
                    "answer": "", "it": {}, "given": {}, "tried": None, "closed": False}
            last[shard, lane] = call
            calls.append(call)
            for place in places:
                holds[shard, place].append(len(calls))
        elif entry == "ended":
            call |= {"end": at, "answer": answer_of(it), "it": it}
        elif entry in ("gave", "replayed"):
            fate = it.get("fate", "replayed")
            if call and call["end"] is not None and {*places} <= {*call["places"]} and fate not in ("expired", "filtered") and not (
                    shard == "queue" and fate == "exhausted"):
                call["given"][fate] = places
            else:
                marks.append([at, shard, lane, "moved" if fate == "exhausted" else fate, spans(places), len(places)])
            done[shard].update(places)
            step(at, shard)
        elif entry == "tried":
            call["tried"] = it["tries"]
            tries.update(dict.fromkeys([(shard, place) for place in places] or [(shard, f"window {it.get('closing')}")], it["tries"]))
        elif entry == "closed":
            call["closed"] = True
            marks.append([at, shard, lane, "window closed", str(it["window"]), 0])
        elif entry == "shut":
            marks.append([at, None, None, "the input ended", "", 0])
    return calls, marks, steps, holds, last


def kind_of(call, replay, again, down):
    """What became of those records of a call that did not succeed, as a place in KINDS, 0 where there are none. `down` tells
    that the run broke off behind this call."""
    given = sum(len(places) for places in call["given"].values())
    failed = "status" not in call["it"] or call["it"]["error"]
    if call["end"] is None or down and not given and not call["closed"] and call["tried"] is None:
        return 7
    if call["tried"] is not None:
        return 1
    if call["it"].get("status", 200) != 200:
        return 2
    if "exhausted" in call["given"] or call["closed"] and failed:
        return 4
    if given == len(call["places"]):
        return 0
    if call["lane"][0] == "queue":
        return 5
    return 6 if replay and not again else 3


def page_of(lines):
    entries, report = [json.loads(line) for line in lines if line[:1] == "{"], [line for line in lines if line[:1] not in ("{", "")]
    replay = bool(report) and report[0].startswith("replay ")
    found = {} if replay else found_of(entries, report)
    calls, marks, steps, holds, last = read(entries, replay, found)
    down = bool(report) and report[-1].startswith(("disk fault", "destination fault", "stream changed"))
    lanes = sorted({call["lane"] for call in calls} | {(shard, lane) for _, shard, lane, *_ in marks if lane is not None})
    numbers, shards = {lane: number for number, lane in enumerate(lanes)}, sorted({shard for shard, _ in lanes} | {*steps})
    start = entries[0]["at"] if entries else 0
    answers, rows = {}, []
    for number, call in enumerate(calls, 1):
        shard, places = call["lane"][0], call["places"]
        good = call["given"].get("succeeded", call["given"].get("replayed", []))
        rest = sorted({*places} - {*good})
        following = min((it for place in rest[:1] for it in holds[shard, place] if it > number), default=0)
        end, window = len(entries) - 1 if call["end"] is None else call["end"], -1 if call["window"] is None else call["window"]
        kind = kind_of(call, replay, following, down and last[call["lane"]] is call)
        rows.append([numbers[call["lane"]], call["begin"], end, len(places), len(good), kind, call["tries"],
                     answers.setdefault(call["answer"], len(answers)), spans(places), spans(good), spans(rest), window,
                     call["tried"] or 0, following - 1])
    return {
        "start": start, "times": [it["at"] - start for it in entries], "report": report, "kinds": KINDS, "answers": list(answers),
        "lanes": [[shard, lane] for shard, lane in lanes], "shards": shards, "calls": rows, "marks": marks, "steps": [steps[it] for it in shards],
        "queue": "queue" in shards, "replay": replay, "found": sum(map(len, found.values())),
    }


PAGE = r"""<!doctype html>
<html lang="en">
<meta charset="utf-8">
<meta name="viewport" content="width=device-width">
<title>Timeline of a run</title>
<style>
:root { color-scheme: light; --page: #ffffff; --text: #1d2329; --soft: #5c6670; --line: #d9dee3; --band: #f5f7f9; --box: #ffffff;
  --succeeded: #1a8f68; --again: #e08a00; --notrun: #2b7fc4; --halved: #8a5fc7; --given: #c63a12; --shows: #e08a00; --left: #c63a12; --none: #7b858f;
  --open: #cfe3f5; --mark: #14507f; }
:root[data-theme=dark] { color-scheme: dark; --page: #14181c; --text: #e6eaee; --soft: #9aa5b0; --line: #333b43; --band: #1b2127; --box: #20272e;
  --succeeded: #3fbf92; --again: #f2ab3c; --notrun: #6bb4ee; --halved: #b596ea; --given: #ff7a52; --shows: #f2ab3c; --left: #ff7a52; --none: #98a2ac;
  --open: #24415a; --mark: #8cc4f0; }
* { box-sizing: border-box; }
body { margin: 0; padding: 16px 20px 32px; background: var(--page); color: var(--text); font: 14px/1.45 system-ui, sans-serif; }
h1 { font-size: 18px; margin: 0 0 6px; }
pre { margin: 0 0 10px; color: var(--soft); font: 12px/1.4 ui-monospace, monospace; white-space: pre-wrap; }
.bar { display: flex; flex-wrap: wrap; gap: 6px 14px; align-items: center; margin: 0 0 8px; }
.bar button, .key { font: inherit; font-size: 13px; color: var(--text); background: var(--box); border: 1px solid var(--line); border-radius: 5px; padding: 2px 9px; cursor: pointer; }
.bar button[aria-pressed=true] { border-color: var(--text); font-weight: 600; }
.key { display: inline-flex; align-items: center; gap: 7px; }
.key[aria-pressed=false] { opacity: .4; }
.key canvas { width: 34px; height: 14px; }
.hint { color: var(--soft); font-size: 12px; }
#area { position: relative; }
#over { position: absolute; left: 0; top: 0; width: 100%; pointer-events: none; }
#chart { display: block; width: 100%; cursor: crosshair; outline: none; }
#axis { display: block; width: 100%; position: sticky; top: 0; background: var(--page); z-index: 1; }
#tip { position: fixed; z-index: 2; max-width: 420px; padding: 7px 10px; background: var(--box); border: 1px solid var(--soft); border-radius: 6px; font-size: 12.5px;
  box-shadow: 0 3px 14px #0005; pointer-events: none; display: none; white-space: pre-line; overflow-wrap: anywhere; }
</style>
<h1 id="title"></h1>
<pre id="report"></pre>
<div class="bar" id="legend"></div>
<div class="bar"><span>Axis:</span><button data-mode="time">time</button><button data-mode="both">time, with room for each entry</button><button data-mode="order">order</button>
<button id="out">zoom out</button><button id="all">all</button><button id="left">◀</button><button id="right">▶</button><button id="theme">light or dark</button>
<span class="hint">Drag to zoom in; double-click for all. Click a kind to hide it. Arrow keys go from call to call.</span></div>
<canvas id="axis"></canvas>
<div id="area"><canvas id="chart" tabindex="0" role="img" aria-label="Calls of each lane over time"></canvas><canvas id="over"></canvas></div>
<div id="tip" role="status" aria-live="polite"></div>
<script type="application/json" id="data">@DATA@</script>
<script>
"use strict";
const D = JSON.parse(document.getElementById("data").textContent), at = id => document.getElementById(id);
const N = Math.max(D.times.length - 1, 1), T = Math.max(D.times[D.times.length - 1] || 0, 1);
const COLORS = ["succeeded", "again", "notrun", "halved", "given", "shows", "left", "none"];
const LEFT = 118, RIGHT = 225, ROW = D.lanes.length > 24 ? 18 : 24, STEP = 62, GAP = 14;
const [ROWOF, BEGIN, END, COUNT, GOOD, KIND, TRIES, ANSWER, PLACES, GOODS, RESTS, WINDOW, TRIED, NEXT] = Array(14).keys();
const hidden = new Set(), css = name => getComputedStyle(document.documentElement).getPropertyValue("--" + name).trim();
const FIRST = -0.015, LAST = 1.02; // a margin, so that the first and the last entry are seen
let mode, from = FIRST, to = LAST, colors = {}, patterns = [], chosen = -1, drag = null;

// where things stand: the rows of a shard, and its steps below them
const rows = [], charts = [];
let height = 4;
D.shards.forEach((shard, index) => {
  charts[index] = { top: height, shard };
  height += 18;
  D.lanes.forEach((lane, row) => { if (lane[0] === shard) { rows[row] = height; height += ROW; } });
  charts[index].at = height + 4;
  height += STEP + GAP;
});
const byRow = D.lanes.map(() => []);
D.calls.forEach((call, index) => byRow[call[ROWOF]].push(index));
const most = D.steps.map(steps => Math.max(1, ...steps.slice(-1).flatMap(it => [D.replay ? 0 : it[1], it[2]])));

// the axis: entries stand by their time, by their order, or by both
function share(entry) {
  const time = D.times[entry] / T, order = entry / N;
  return mode === "time" ? time : mode === "order" ? order : 0.45 * time + 0.55 * order;
}
let width = 1000;
const xOf = part => LEFT + (part - from) / (to - from) * (width - LEFT - RIGHT);
const x = entry => xOf(share(entry));
const partAt = px => from + (px - LEFT) / (width - LEFT - RIGHT) * (to - from);
function entryAt(part) { // the last entry that is not behind this part of the axis
  let low = 0, high = D.times.length - 1;
  while (low < high) { const mid = (low + high + 1) >> 1; if (share(mid) <= part) low = mid; else high = mid - 1; }
  return low;
}
function timeAt(part) {
  if (mode === "time") return Math.min(Math.max(part, 0), 1) * T;
  const low = entryAt(part), next = Math.min(low + 1, N), wide = share(next) - share(low);
  return (D.times[low] || 0) + (wide > 0 ? Math.min(Math.max((part - share(low)) / wide, 0), 1) * (D.times[next] - D.times[low]) : 0);
}
const span = ms => ms < 1000 ? `${+ms.toFixed(ms < 10 ? 1 : 0)} ms` : ms < 120000 ? `${+(ms / 1000).toFixed(3)} s` : ms < 7200000 ? `${+(ms / 60000).toFixed(2)} min` : `${+(ms / 3600000).toFixed(2)} h`;
const moment = ms => `+${span(ms)}`;
const shardName = shard => shard === "queue" ? "queue" : "shard " + (+shard.slice(-12));
const laneName = lane => (D.queue ? "batcher " : "lane ") + lane[1];

function pattern(kind, scale) {
  const tile = document.createElement("canvas"), size = 8 * scale, g = tile.getContext("2d"), color = css(COLORS[kind]), back = css("page");
  tile.width = tile.height = size;
  g.scale(scale, scale);
  const draw = (...lines) => { g.beginPath(); lines.forEach(([a, b, c, d]) => { g.moveTo(a, b); g.lineTo(c, d); }); g.stroke(); };
  g.fillStyle = [0, 4].includes(kind) ? color : back;
  g.fillRect(0, 0, 8, 8);
  g.strokeStyle = kind === 4 ? back : color;
  g.lineWidth = kind === 4 ? 1.3 : 2;
  if (kind === 1) draw([-2, 2, 2, -2], [-2, 10, 10, -2], [6, 10, 10, 6]);
  if (kind === 2) { g.fillStyle = color; g.fillRect(3, 3, 2, 2); }
  if (kind === 3) draw([2, 0, 2, 8], [6, 0, 6, 8]);
  if (kind === 4) draw([0, 0, 8, 8], [8, 0, 0, 8]);
  if (kind === 5) draw([0, 2, 8, 2], [0, 6, 8, 6]);
  if (kind === 6) draw([0, 0, 8, 8], [8, 0, 0, 8]);
  return tile;
}
function dress() { // colours and patterns of the theme
  const scale = devicePixelRatio || 1;
  for (const name of [...COLORS, "text", "soft", "line", "band", "open", "mark", "page", "box"]) colors[name] = css(name);
  const g = at("chart").getContext("2d");
  patterns = D.kinds.map((_, kind) => { const it = g.createPattern(pattern(kind, scale), "repeat"); it.setTransform(new DOMMatrix().scale(1 / scale)); return it; });
}
function box(g, kind, left, top, wide, high) {
  g.fillStyle = kind ? patterns[kind] : colors.succeeded;
  g.fillRect(left, top, wide, high);
  if (kind && wide > 1.5) { g.strokeStyle = colors[COLORS[kind]]; g.lineWidth = 1; g.strokeRect(left + .5, top + .5, Math.max(wide - 1, .5), high - 1); }
}
function bar(g, call, left, top, wide) { // the part that succeeded is low, what did not stands out
  if (wide > 5) wide--; // so that calls which touch are seen as two
  const high = ROW - 6, part = call[KIND] ? (call[COUNT] ? call[GOOD] / call[COUNT] : 0) : 1, cut = Math.round(wide * part);
  if (part) box(g, 0, left, top + 3 + high * .2, call[KIND] ? Math.max(cut, 1) : wide, high * .6);
  if (call[KIND]) box(g, call[KIND], left + cut, top + 3, Math.max(wide - cut, 2), high);
  if (call[WINDOW] >= 0) { g.fillStyle = colors.text; g.beginPath(); g.moveTo(left, top + 1); g.lineTo(left + 8, top + 1); g.lineTo(left, top + 9); g.fill(); }
}
function place(canvas, high) {
  const scale = devicePixelRatio || 1;
  width = canvas.clientWidth;
  canvas.style.height = high + "px";
  canvas.width = Math.round(width * scale);
  canvas.height = Math.round(high * scale);
  const g = canvas.getContext("2d");
  g.setTransform(scale, 0, 0, scale, 0, 0);
  g.font = "12px system-ui, sans-serif";
  g.textBaseline = "middle";
  return g;
}
function ticks() {
  const list = [], room = width - LEFT - RIGHT, count = Math.max(2, Math.floor(room / 110));
  if (mode === "time") {
    const least = (to - from) * T / count, power = 10 ** Math.floor(Math.log10(Math.max(least, 1))), unit = [1, 2, 5, 10].map(it => it * power).find(it => it >= least) || 10 * power;
    for (let t = Math.max(Math.ceil(from * T / unit), 0) * unit; t <= Math.min(to, 1.001) * T; t += unit) list.push([xOf(t / T), moment(t)]);
  } else for (let i = 0; i <= count; i++) list.push([LEFT + room * i / count, moment(timeAt(partAt(LEFT + room * i / count)))]);
  return list;
}
function draw() {
  const g = place(at("chart"), height), lines = ticks(), right = width - RIGHT;
  g.clearRect(0, 0, width, height);
  D.lanes.forEach((lane, row) => { if (row % 2 === 0) { g.fillStyle = colors.band; g.fillRect(LEFT, rows[row], right - LEFT, ROW); } });
  g.fillStyle = colors.line;
  lines.forEach(([px]) => g.fillRect(Math.round(px), 0, 1, height));
  g.save();
  g.beginPath(); g.rect(LEFT, 0, right - LEFT, height); g.clip();
  charts.forEach((chart, index) => steps(g, chart, index, right));
  // what waits: a dotted line from a call that failed to the next one of its lane
  g.strokeStyle = colors.soft; g.lineWidth = 1.5; g.setLineDash([2, 3]);
  if (!D.queue && !D.replay) byRow.forEach((list, row) => {
    g.beginPath();
    for (let i = 0; i + 1 < list.length; i++) {
      const call = D.calls[list[i]], next = D.calls[list[i + 1]];
      if (call[KIND] !== 1 && call[KIND] !== 2 || share(next[BEGIN]) < from || share(call[END]) > to) continue;
      g.moveTo(Math.max(x(call[END]), LEFT), rows[row] + ROW / 2); g.lineTo(Math.min(x(next[BEGIN]), right), rows[row] + ROW / 2);
    }
    g.stroke();
  });
  g.setLineDash([]);
  const edges = D.lanes.map(() => -1); // narrow bars that touch are drawn once
  for (const failed of [false, true]) for (const call of D.calls) {
    if (hidden.has(call[KIND]) || !!call[KIND] !== failed || share(call[END]) < from || share(call[BEGIN]) > to) continue;
    const left = Math.max(x(call[BEGIN]), LEFT - 20), wide = Math.max(Math.min(x(call[END]), right + 20) - left, 2.5);
    if (!failed && wide < 3 && left + wide < edges[call[ROWOF]] + 0.5 && call[WINDOW] < 0) continue;
    edges[call[ROWOF]] = left + wide;
    bar(g, call, left, rows[call[ROWOF]], wide);
  }
  D.marks.forEach(mark => drawMark(g, mark));
  g.restore();
  g.font = "12px system-ui, sans-serif";
  D.lanes.forEach((lane, row) => {
    g.fillStyle = colors.text; g.textAlign = "right"; g.fillText(laneName(lane), LEFT - 8, rows[row] + ROW / 2);
    g.fillStyle = colors.soft; g.textAlign = "left"; g.fillText(laneSums[row], right + 8, rows[row] + ROW / 2, RIGHT - 10);
  });
  charts.forEach((chart, index) => {
    const last = D.steps[index].slice(-1)[0] || [0, 0, 0], what = D.replay ? "replayed" : D.queue ? "deleted" : "checkpoint";
    g.fillStyle = colors.text; g.textAlign = "left"; g.font = "600 12px system-ui, sans-serif";
    g.fillText(shardName(chart.shard), 0, chart.top + 9);
    g.font = "12px system-ui, sans-serif";
    g.textAlign = "right"; g.fillText(what, LEFT - 8, chart.at + STEP - 14);
    g.fillStyle = colors.soft; if (!D.replay) g.fillText("came - - -", LEFT - 8, chart.at + 8);
    g.textAlign = "left"; g.fillText(D.replay ? `${last[2]} replayed` : `${what} ${last[2]} of ${last[1]} that came`, right + 8, chart.at + STEP / 2, RIGHT - 10);
  });
  const a = place(at("axis"), 22);
  a.fillStyle = colors.soft; a.textAlign = "center";
  a.clearRect(0, 0, width, 22);
  lines.forEach(([px, text]) => a.fillText(text, Math.min(Math.max(px, LEFT + 20), width - 30), 11));
}
function drawOver() { // what is under the pointer, above the rest
  const g = place(at("over"), height);
  g.beginPath(); g.rect(LEFT, 0, width - LEFT - RIGHT, height); g.clip();
  if (chosen >= 0) {
    const call = D.calls[chosen];
    g.strokeStyle = colors.text; g.lineWidth = 2;
    g.strokeRect(x(call[BEGIN]) - 2, rows[call[ROWOF]] + 1, Math.max(x(call[END]) - x(call[BEGIN]), 2.5) + 4, ROW - 2);
    for (let one = call, more = 0; one[NEXT] >= 0 && more < 100; one = D.calls[one[NEXT]], more++) { // the calls that hold its rest again
      const next = D.calls[one[NEXT]];
      g.beginPath(); g.moveTo(x(one[END]), rows[one[ROWOF]] + ROW / 2); g.lineTo(x(next[BEGIN]), rows[next[ROWOF]] + ROW / 2); g.stroke();
    }
  }
  if (drag && Math.abs(drag.now - drag.first) > 3) { g.fillStyle = colors.mark + "33"; g.fillRect(Math.min(drag.first, drag.now), 0, Math.abs(drag.now - drag.first), height); }
}
function levels(index, part) { // the step that holds at this part of the axis: its entry, what came, how far it is
  const list = D.steps[index], entry = entryAt(part);
  let low = -1, high = list.length - 1;
  while (low < high) { const mid = (low + high + 1) >> 1; if (list[mid][0] <= entry) low = mid; else high = mid - 1; }
  return low < 0 ? [0, 0, 0] : list[low];
}
function steps(g, chart, index, right) {
  g.save();
  g.beginPath(); g.rect(0, chart.at, width, STEP); g.clip();
  const list = D.steps[index], least = from > 0 ? levels(index, from)[2] : 0, top = to < 1 ? levels(index, to)[D.replay ? 2 : 1] : most[index];
  const y = value => chart.at + STEP - 4 - (STEP - 8) * (value - least) / Math.max(top - least, 1); // what is seen fills the height
  const path = (which, back) => {
    let value = 0;
    g.beginPath(); g.moveTo(x(0) - 1, y(0));
    for (const it of list) { g.lineTo(x(it[0]), y(value)); value = it[which]; g.lineTo(x(it[0]), y(value)); }
    g.lineTo(xOf(1), y(value));
  };
  if (!D.replay) { path(1); g.lineTo(xOf(1), y(0)); g.fillStyle = colors.open; g.fill(); }
  path(2); g.lineTo(xOf(1), y(0)); g.fillStyle = colors.page; g.fill();
  if (!D.replay) { path(1); g.setLineDash([5, 4]); g.strokeStyle = colors.soft; g.lineWidth = 1.2; g.stroke(); g.setLineDash([]); }
  path(2); g.strokeStyle = colors.mark; g.lineWidth = 2.2; g.stroke();
  g.strokeStyle = colors.line; g.lineWidth = 1; g.beginPath(); g.moveTo(LEFT, chart.at + STEP - 2); g.lineTo(right, chart.at + STEP - 2); g.stroke();
  g.restore();
}
D.marks.forEach(mark => { mark.row = D.lanes.findIndex(lane => lane[0] === mark[1] && lane[1] === mark[2]); });
function spot(mark) { // where a mark stands
  const row = mark.row;
  if (mark[1] === null) return [x(mark[0]), 8];
  return row >= 0 ? [x(mark[0]), rows[row] + ROW / 2] : [x(mark[0]), charts[D.shards.indexOf(mark[1])].at - 2];
}
function drawMark(g, mark) {
  const part = share(mark[0]);
  if (part < from || part > to) return;
  const [px, py] = spot(mark), s = 5;
  g.lineWidth = 1.6; g.strokeStyle = colors.text; g.fillStyle = mark[3] === "moved" ? colors.given : colors.page;
  g.beginPath();
  if (mark[1] === null) { g.setLineDash([1, 2]); g.moveTo(px, 0); g.lineTo(px, height); g.stroke(); g.setLineDash([]); return; }
  if (mark[3] === "window closed") { g.moveTo(px, py - ROW / 2 + 2); g.lineTo(px, py + ROW / 2 - 2); g.stroke(); return; }
  if (mark[3] === "filtered") { g.moveTo(px - s, py - s); g.lineTo(px + s, py - s); g.lineTo(px, py + s); }
  else { g.moveTo(px - s, py); g.lineTo(px, py - s); g.lineTo(px + s, py); g.lineTo(px, py + s); }
  g.closePath(); g.fill(); g.stroke();
}
const laneSums = byRow.map(list => {
  const sums = D.kinds.map(() => 0);
  list.forEach(index => sums[D.calls[index][KIND]]++);
  return [`${list.length} call${list.length === 1 ? "" : "s"}`, ...D.kinds.map((kind, i) => i && sums[i] ? `${sums[i]} ${kind.replace("called ", "")}` : "").filter(Boolean)].join(", ");
});

function tellCall(index) {
  const call = D.calls[index], lane = D.lanes[call[ROWOF]], begin = D.times[call[BEGIN]], end = D.times[call[END]], kind = call[KIND];
  const list = [`Call ${index + 1} of ${D.calls.length}, ${D.queue ? "" : shardName(lane[0]) + ", "}${laneName(lane)}`,
    `${moment(begin)} to ${moment(end)}, ${span(end - begin)}`,
    call[WINDOW] >= 0 && !call[COUNT] ? `final call of the window of ${new Date(call[WINDOW]).toISOString().slice(0, 19)}Z` : `batch of ${call[COUNT]}: ${call[PLACES]}`];
  if (call[TRIES]) list.push(`failed tries before: ${call[TRIES]}`);
  if (kind !== 7) list.push(`answer: ${D.answers[call[ANSWER]]}`);
  if (call[GOODS]) list.push(`${D.replay ? "replayed" : "succeeded"}: ${call[GOODS]}`);
  if (kind) list.push(`${D.kinds[kind]}: ${call[RESTS] || "the final call"}${call[TRIED] ? `, try ${call[TRIED]} has failed` : ""}`);
  if (call[NEXT] >= 0) list.push(`next held by call ${call[NEXT] + 1}, ${span(D.times[D.calls[call[NEXT]][BEGIN]] - end)} later`);
  return list.join("\n");
}
function tellMark(mark) { return `${mark[3]}${mark[5] ? ` (${mark[5]})` : ""}${mark[4] ? `: ${mark[4]}` : ""}\n${moment(D.times[mark[0]])}`; }
function found(px, py) {
  for (const mark of D.marks) { const [mx, my] = spot(mark); if (Math.abs(mx - px) < 5 && Math.abs(my - py) < 7) return { text: tellMark(mark), call: -1 }; }
  const row = rows.findIndex(top => py >= top && py < top + ROW);
  if (row >= 0) {
    let best = -1, far = 6;
    for (const index of byRow[row]) {
      const call = D.calls[index], left = x(call[BEGIN]), away = Math.max(left - px, px - Math.max(x(call[END]), left + 2.5), 0);
      if (!hidden.has(call[KIND]) && away < far) { best = index; far = away; }
    }
    return best >= 0 ? { text: tellCall(best), call: best } : null;
  }
  const index = charts.findIndex(it => py >= it.at && py < it.at + STEP);
  if (index < 0 || px < LEFT) return null;
  const step = levels(index, partAt(px));
  return { text: `${moment(timeAt(partAt(px)))}: ${D.replay ? "" : step[1] + " came, "}${D.replay ? "replayed" : D.queue ? "deleted" : "checkpoint"} ${step[2]}`, call: -1 };
}
function tip(text, px, py) {
  const it = at("tip");
  it.style.display = text ? "block" : "none";
  if (!text) return;
  it.textContent = text;
  it.style.left = Math.max(4, Math.min(px + 14, innerWidth - it.offsetWidth - 8)) + "px";
  it.style.top = (py + 18 + it.offsetHeight > innerHeight ? Math.max(4, py - it.offsetHeight - 12) : py + 18) + "px";
}
let waiting = false;
function redraw() { if (!waiting) { waiting = true; requestAnimationFrame(() => { waiting = false; draw(); drawOver(); }); } }
function view(a, b) {
  const wide = Math.min(Math.max(b - a, 1e-7), LAST - FIRST);
  from = Math.min(Math.max(a, FIRST), LAST - wide); to = from + wide;
  redraw();
}
function choose(index) {
  chosen = index;
  const call = D.calls[index], middle = share(call[BEGIN]);
  if (middle < from || middle > to) view(middle - (to - from) / 2, middle + (to - from) / 2);
  drawOver();
  const area = at("chart").getBoundingClientRect();
  tip(tellCall(index), area.left + x(call[BEGIN]), area.top + rows[call[ROWOF]] + ROW - 12);
}
const chart = at("chart");
chart.addEventListener("mousemove", event => {
  if (drag) { drag.now = event.offsetX; drawOver(); tip(""); return; }
  const it = found(event.offsetX, event.offsetY);
  if ((it ? it.call : -1) !== chosen) { chosen = it ? it.call : -1; drawOver(); }
  tip(it ? it.text : "", event.clientX, event.clientY);
});
chart.addEventListener("mouseleave", () => { tip(""); chosen = -1; drag = null; drawOver(); });
chart.addEventListener("mousedown", event => { drag = { first: event.offsetX, now: event.offsetX }; });
chart.addEventListener("mouseup", event => {
  const it = drag;
  drag = null;
  if (it && Math.abs(event.offsetX - it.first) > 3) view(partAt(Math.max(Math.min(event.offsetX, it.first), LEFT)), partAt(Math.min(Math.max(event.offsetX, it.first), width - RIGHT)));
});
chart.addEventListener("dblclick", () => view(FIRST, LAST));
chart.addEventListener("wheel", event => {
  if (!event.ctrlKey && !event.shiftKey) return;
  event.preventDefault();
  const middle = partAt(event.offsetX), by = event.deltaY + event.deltaX > 0 ? 1.25 : 0.8;
  view(middle - (middle - from) * by, middle + (to - middle) * by);
}, { passive: false });
chart.addEventListener("keydown", event => {
  const way = { ArrowRight: 1, ArrowLeft: -1 }[event.key], rowWay = { ArrowDown: 1, ArrowUp: -1 }[event.key];
  if (!way && !rowWay || !D.calls.length) return;
  event.preventDefault();
  if (chosen < 0) return choose(0);
  const call = D.calls[chosen], list = byRow[call[ROWOF]];
  if (way) return choose(list[Math.min(Math.max(list.indexOf(chosen) + way, 0), list.length - 1)]);
  const other = byRow[Math.min(Math.max(call[ROWOF] + rowWay, 0), byRow.length - 1)];
  if (other.length) choose(other.reduce((best, index) => Math.abs(D.calls[index][BEGIN] - call[BEGIN]) < Math.abs(D.calls[best][BEGIN] - call[BEGIN]) ? index : best, other[0]));
});
at("all").onclick = () => view(FIRST, LAST);
at("out").onclick = () => view(from - (to - from) / 2, to + (to - from) / 2);
at("left").onclick = () => view(from - (to - from) / 3, to - (to - from) / 3);
at("right").onclick = () => view(from + (to - from) / 3, to + (to - from) / 3);
function setMode(name) {
  const middle = mode ? entryAt((from + to) / 2) : 0, wide = to - from;
  mode = name;
  document.querySelectorAll("[data-mode]").forEach(it => it.setAttribute("aria-pressed", it.dataset.mode === name));
  if (wide < LAST - FIRST) view(share(middle) - wide / 2, share(middle) + wide / 2); else redraw();
}
document.querySelectorAll("[data-mode]").forEach(it => { it.onclick = () => setMode(it.dataset.mode); });
function legend() {
  const sums = D.kinds.map(() => 0), scale = devicePixelRatio || 1;
  D.calls.forEach(call => sums[call[KIND]]++);
  at("legend").replaceChildren(...D.kinds.flatMap((kind, index) => {
    if (!sums[index]) return [];
    const key = document.createElement("button"), sample = document.createElement("canvas");
    key.className = "key";
    key.setAttribute("aria-pressed", !hidden.has(index));
    key.onclick = () => { hidden.has(index) ? hidden.delete(index) : hidden.add(index); legend(); redraw(); };
    sample.width = 34 * scale; sample.height = 14 * scale;
    const g = sample.getContext("2d");
    g.scale(scale, scale);
    index ? box(g, index, 0, 0, 34, 14) : box(g, 0, 0, 3, 34, 8);
    key.append(sample, `${kind} ${sums[index]}`);
    return [key];
  }));
  const marks = {}, signs = { filtered: "▽ filtered", expired: "◇ expired", moved: "◆ moved", "window closed": "| window closed", "the input ended": "┊ the input ended" };
  D.marks.forEach(mark => { marks[mark[3]] = (marks[mark[3]] || 0) + (mark[5] || 1); });
  const more = Object.entries(marks).map(([name, count]) => name === "the input ended" ? signs[name] : `${signs[name]} ${count}`);
  if (D.calls.some(call => call[WINDOW] >= 0)) more.push("◤ final call of a window");
  if (sums[1] + sums[2] && !D.queue && !D.replay) more.push("┄ the lane waits");
  const text = document.createElement("span");
  text.className = "hint"; text.textContent = more.join(" · ");
  at("legend").append(text);
}
function theme(name) { document.documentElement.dataset.theme = name; dress(); legend(); redraw(); }
const dark = matchMedia("(prefers-color-scheme: dark)");
dark.addEventListener("change", () => theme(dark.matches ? "dark" : "light"));
at("theme").onclick = () => theme(document.documentElement.dataset.theme === "dark" ? "light" : "dark");
addEventListener("resize", () => { dress(); redraw(); });
at("report").textContent = D.report.join("\n");
if (D.found) at("report").append(`\n${D.found} fates were found: those of records that the trace does not name`);
at("title").textContent = `${D.calls.length} call${D.calls.length === 1 ? "" : "s"} in ${span(D.times[D.times.length - 1] || 0)}, from ${new Date(D.start).toISOString()}`;
const narrow = D.calls.filter(call => (D.times[call[END]] - D.times[call[BEGIN]]) / T * 900 < 3).length;
mode = narrow > D.calls.length / 10 ? "both" : "time";
theme(/dark|light/.test(location.hash) ? location.hash.slice(1) : dark.matches ? "dark" : "light");
setMode(mode);
</script>
</html>
"""


def main():
    data = page_of(sys.stdin.buffer.read().decode(errors="replace").split("\n"))
    text = json.dumps(data, separators=(",", ":"), ensure_ascii=False).replace("<", "\\u003c")
    sys.stdout.buffer.write(PAGE.replace("@DATA@", text).encode())


if __name__ == "__main__":
    main()
