"""A test of a consumer of a stream, over kills: what became of each order, that none with a fate is called again, and the order of
a key.

    python3 -m unittest -v

runs it in this folder. To test a consumer of your own, copy the folder and put your handler, mapping and records in place of
these. ESM says where the program `esm` is, which has `tools/function_host.py` beside it.
"""

import itertools
import json
import os
import re
import subprocess
import sys
import tempfile
import time
import unittest
from pathlib import Path

HERE = Path(__file__).resolve().parent
ESM = Path(os.environ.get("ESM", HERE.parent.parent / "esm")).resolve()
HOST = ESM.parent / "tools" / "function_host.py"
HANDLER = HERE / "handler.py"
MAPPING = (HERE / "mapping.json").read_text()
INPUT = (HERE / "input.jsonl").read_text()
RECORDS = [json.loads(line) for line in INPUT.splitlines()]
POISONED = "17"  # the sequence number of the order that the handler cannot bill
SHARD = "shardId-000000000000"


class Function:
    """The handler, served on a port of its own by a process of its own. Its log has a line for each call."""

    def __init__(self, folder):
        self.log = folder / "calls.jsonl"
        told = folder / "host.txt"
        with open(self.log, "w") as log, open(told, "w") as errors:
            words = [sys.executable, HOST, HANDLER, "--port", "0"]
            self.process = subprocess.Popen(words, stdout=log, stderr=errors)
        until(lambda: "serving" in told.read_text() or self.process.poll() is not None)
        found = re.search(r"http://127\.0\.0\.1:(\d+)/", told.read_text())
        if not found:
            raise RuntimeError(told.read_text())
        self.port = found[1]

    def calls(self):
        """Of each call the sequence numbers of its records, in the order in which the calls began."""
        whole = self.log.read_text().rpartition("\n")[0]
        return [json.loads(line)["sequenceNumbers"] for line in whole.splitlines()]

    def stop(self):
        self.process.terminate()
        self.process.wait()


def until(holds, seconds=60):
    """Waits until it holds."""
    end = time.monotonic() + seconds
    while not holds():
        if time.monotonic() > end:
            raise TimeoutError("it did not come")
        time.sleep(0.005)


def esm(folder, function, *words):
    """What the command prints, line by line, and its exit status."""
    ended = subprocess.run([ESM, folder, function, "0", *words], stdout=subprocess.PIPE, text=True)
    return ended.stdout.splitlines(), ended.returncode


class ConsumerTest(unittest.TestCase):
    def new_folder(self):
        """A folder with its files made, and the input in it."""
        temporary = tempfile.TemporaryDirectory()
        self.addCleanup(temporary.cleanup)
        self.folder = Path(temporary.name)
        self.assertEqual(esm(self.folder, "ok", "init"), (["done"], 0))
        (self.folder / "input.jsonl").write_text(INPUT)

    def serve(self):
        function = Function(self.folder)
        self.addCleanup(function.stop)
        return function

    def run_to_the_end(self):
        """The calls of a run that nothing stops, and its report."""
        function = self.serve()
        report, status = esm(self.folder, function.port, "run", "--config", MAPPING)
        self.assertEqual(status, 0)
        calls = function.calls()
        self.assertEqual(report[1:], [f"calls {len(calls)}", "done"])
        return calls, report[0]

    def run_and_kill(self, count):
        """The calls of a run that is killed once so many began."""
        function = self.serve()
        run = subprocess.Popen([ESM, self.folder, function.port, "0", "run", "--config", MAPPING], stdout=subprocess.DEVNULL)
        until(lambda: len(function.calls()) >= count or run.poll() is not None)
        self.assertIsNone(run.poll(), "the run ended before it could be killed")
        run.kill()
        run.wait()
        function.stop()
        return function.calls()

    def finished(self):
        """How many records have a fate by the journal, and how many of the first ones all have one."""
        report, status = esm(self.folder, "ok", "show")
        self.assertEqual((report[-1], status), ("done", 0))
        found = re.fullmatch(f"shard {SHARD} given (\\d+) frontier (\\d+)", report[0])
        return (int(found[1]), int(found[2])) if found else (0, 0)

    # what is to hold

    def assert_outcome(self, told):
        """Every order was billed but the poisoned one, which alone was given up, and is named by a failure line."""
        count = len(RECORDS)
        self.assertEqual(told, f"shard {SHARD} records {count} checkpoint {count} "
                               f"succeeded {count - 1} filtered 0 expired 0 exhausted 1")
        *lines, last = esm(self.folder, "ok", "failures")[0]
        self.assertEqual(last, "done")
        # behind a kill between the line and the fate that it tells of, the line may come twice
        self.assertEqual({
            (batch["shardId"], batch["startSequenceNumber"], batch["endSequenceNumber"], line["requestContext"]["condition"])
            for line in map(json.loads, lines) for batch in [line["KinesisBatchInfo"]]
        }, {(SHARD, POISONED, POISONED, "RetryAttemptsExhausted")})

    def assert_order(self, calls):
        """Of two records of a key the earlier one is never called once the later one was called without it."""
        keys = {}
        for record in RECORDS:
            keys.setdefault(record["partitionKey"], []).append(record["sequenceNumber"])
        for numbers in keys.values():
            for earlier, later in itertools.combinations(numbers, 2):
                with_earlier = [at for at, call in enumerate(calls) if earlier in call]
                without = [at for at, call in enumerate(calls) if later in call and earlier not in call]
                self.assertTrue(with_earlier, f"{earlier} was never called")
                if without:
                    self.assertLess(with_earlier[-1], without[0], f"{earlier} was called behind {later}")

    # tests

    def test_undisturbed(self):
        self.new_folder()
        calls, told = self.run_to_the_end()
        self.assert_outcome(told)
        self.assert_order(calls)

    def test_killed(self):
        for count in (1, 4, 8):
            with self.subTest(calls=count):
                self.new_folder()
                before = self.run_and_kill(count)
                given, frontier = self.finished()
                after, told = self.run_to_the_end()
                self.assert_outcome(told)
                again = {number for call in after for number in call}
                self.assertFalse(again & {record["sequenceNumber"] for record in RECORDS[:frontier]})
                # each record without a fate was called, so where they are as many no other one was
                self.assertEqual(len(again), len(RECORDS) - given)
                self.assert_order(before + after)

    def test_run_again(self):
        self.new_folder()
        self.run_to_the_end()
        calls, told = self.run_to_the_end()
        self.assertEqual(calls, [])
        self.assert_outcome(told)


if __name__ == "__main__":
    unittest.main()
