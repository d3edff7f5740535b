#!/usr/bin/env python3
"""Turn what the AWS command line prints of records into input lines of `esm`.

    aws kinesis get-records --shard-iterator I | tools/from_aws.py --shard shardId-000000000003 > input.jsonl
    aws sqs receive-message --queue-url U --attribute-names All | tools/from_aws.py > input.jsonl
    aws dynamodbstreams get-records --shard-iterator I | tools/from_aws.py --shard 0 > input.jsonl

The first two are inputs of `run`, the last one of `ddb`. Standard input or the files are any number of such outputs, one
behind the other, all of one kind, in the order in which they were fetched. An output of `get-records` does not tell its shard:
--shard does, with the shard's id or its number. Each shard of a table's stream, whose ids have another form, gets a number of
your own. Lines of several shards may stand in one input: run this once for each, and join what it prints.

A record that can be no line is left out, and told on standard error with what is wrong: among others one whose sequence number
is not above the last one's, a message that was received before, one without `SentTimestamp`, which `receive-message` tells only
where it is asked for attributes, and data, a body or a change of more than 1,048,576 bytes. What a record has and no line holds
is told there too: message attributes, `userIdentity`, and zeros before a sequence number. The exit status is 0 where every
record is a line, 1 where one was left out, and 2 where the words or the input are none that it reads; nothing is printed then.
Python's standard library is all that is needed.
"""

import argparse
import base64
import collections
import json
import re
import sys
from datetime import datetime, timedelta, timezone
from decimal import Decimal
from pathlib import Path

MOST_BYTES = 1_048_576  # of data, of a body and of a change's element
MOST_MOMENT = 253_402_300_799_999  # 9999-12-31T23:59:59.999Z, in milliseconds since 1970
EPOCH = datetime(1970, 1, 1, tzinfo=timezone.utc)
BODY = "[\t\n\r\x20-\ud7ff\ue000-\ufffd\U00010000-\U0010ffff]+"
VISIBLE = "[\x21-\x7e]"
NUMBER = "[0-9]{1,129}"
SPACE = re.compile("[ \t\r\n]*")
DECODER = json.JSONDecoder(parse_float=Decimal)


class LeftOut(Exception):
    """Why a record can be no line."""


class Refused(Exception):
    """Why nothing can be read of the words or of the input."""


# values


def member(record, name):
    """The member of this name, which a line needs."""
    if not isinstance(record, dict) or record.get(name) is None:
        raise LeftOut(f"it has no {name}")
    return record[name]


def text(record, name, form):
    """The text of this name, which has this form."""
    found = member(record, name)
    if not isinstance(found, str) or not re.fullmatch(form, found, re.DOTALL):
        raise LeftOut(f"its {name} is {json.dumps(found, default=str)[:80]}")
    return found


def data_of(record):
    """Base64 of so many bytes, as it stands."""
    data = text(record, "Data", ".*")
    try:
        decoded = base64.b64decode(data, validate=True)
    except ValueError:
        decoded = b""
    if base64.b64encode(decoded).decode() != data:
        raise LeftOut("its Data is not base64")
    at_most("Data", decoded)
    return data


def at_most(name, found):
    if len(found) > MOST_BYTES:
        raise LeftOut(f"its {name} has {len(found)} bytes")


def moment_of(record, name, instead):
    """A number of seconds since 1970, or a date with its offset, in milliseconds, rounded down."""
    if record.get(name) is None and instead is not None:
        return instead
    found = member(record, name)
    try:
        if isinstance(found, bool):
            raise ValueError
        if isinstance(found, str) and not re.fullmatch("[0-9.Ee+]+", found):
            moment = (datetime.fromisoformat(found.replace("Z", "+00:00")) - EPOCH) // timedelta(milliseconds=1)
        else:
            moment = Decimal(found) * 1000
        if 0 <= moment < MOST_MOMENT + 1:
            return int(moment)
    except (ArithmeticError, TypeError, ValueError):
        pass  # it is neither, or a date without its offset
    raise LeftOut(f"its {name} is {json.dumps(found, default=str)[:80]}")


def compact(value):
    """The bytes of a JSON value, without white space."""
    try:
        return json.dumps(value, ensure_ascii=False, separators=(",", ":")).encode()
    except UnicodeEncodeError:
        raise LeftOut("a text in it is not Unicode") from None


def is_value(value):
    """Whether this is an attribute value of an item."""
    if not isinstance(value, dict) or len(value) != 1:
        return False
    [(kind, held)] = value.items()
    if kind in ("S", "N", "B"):
        return isinstance(held, str)
    if kind in ("SS", "NS", "BS"):
        return isinstance(held, list) and all(isinstance(one, str) for one in held)
    if kind == "L":
        return isinstance(held, list) and all(map(is_value, held))
    if kind == "M":
        return is_image(held)
    return isinstance(held, bool) if kind == "BOOL" else kind == "NULL" and held is True


def is_image(value):
    return isinstance(value, dict) and all(map(is_value, value.values()))


# lines


def stream_line(record, shard, moment):
    return {
        "shardId": shard,
        "sequenceNumber": text(record, "SequenceNumber", NUMBER).lstrip("0") or "0",
        "partitionKey": text(record, "PartitionKey", ".{1,256}"),
        "data": data_of(record),
        "approximateArrivalTimestamp": moment_of(record, "ApproximateArrivalTimestamp", moment),
    }


def table_line(record, shard, moment):
    change = member(record, "dynamodb")
    keys, size = member(change, "Keys"), member(change, "SizeBytes")
    if not is_image(keys) or not keys or any(not {*key} <= {*"SNB"} for key in keys.values()):
        raise LeftOut("its Keys are not those of an item")
    if type(size) is not int or not 0 <= size <= 2**53:
        raise LeftOut(f"its SizeBytes is {size}")
    images = {name: change[name] for name in ("NewImage", "OldImage") if change.get(name) is not None}
    for name, image in images.items():
        if not is_image(image):
            raise LeftOut(f"its {name} has what is no attribute value")
    line = {
        "shardId": shard,
        "approximateArrivalTimestamp": moment_of(change, "ApproximateCreationDateTime", moment),
        "eventID": text(record, "eventID", VISIBLE + "{1,100}"),
        "eventName": text(record, "eventName", "INSERT|MODIFY|REMOVE"),
        "dynamodb": {
            "Keys": keys,
            **images,
            "SequenceNumber": text(change, "SequenceNumber", NUMBER).lstrip("0") or "0",
            "SizeBytes": size,
            "StreamViewType": text(change, "StreamViewType", "KEYS_ONLY|NEW_IMAGE|OLD_IMAGE|NEW_AND_OLD_IMAGES"),
        },
    }
    at_most("change", compact(element(line, record.get("awsRegion"))))
    return line


def element(line, region):
    """What stands of the change in an event, without the ARN of the mapping."""
    return {
        "eventID": line["eventID"],
        "eventName": line["eventName"],
        "eventVersion": "1.1",
        "eventSource": "aws:dynamodb",
        "awsRegion": str(region or ""),
        "dynamodb": {"ApproximateCreationDateTime": line["approximateArrivalTimestamp"] // 1000, **line["dynamodb"]},
        "eventSourceARN": "",
    }


def queue_line(message, shard, moment):
    attributes = message.get("Attributes")
    attributes = attributes if isinstance(attributes, dict) else {}
    line = {
        "messageId": text(message, "MessageId", "[A-Za-z0-9_-]{1,100}"),
        "body": text(message, "Body", BODY),
        "sentTimestamp": moment,
    }
    at_most("Body", line["body"].encode())
    if moment is None or "SentTimestamp" in attributes:
        line["sentTimestamp"] = int(text(attributes, "SentTimestamp", "[0-9]{1,15}"))
    if line["sentTimestamp"] > MOST_MOMENT:
        raise LeftOut(f"its SentTimestamp is {line['sentTimestamp']}")
    if "MessageGroupId" in attributes:
        line["messageGroupId"] = text(attributes, "MessageGroupId", VISIBLE + "{1,128}")
    return line


MAKE = {"stream": stream_line, "table": table_line, "queue": queue_line}


class Input:
    """The lines of one input, and what is to be told of its records."""

    def __init__(self, shard, moment):
        self.shard = shard
        self.moment = moment
        self.lines = []
        self.left_out = []
        self.lost = collections.Counter()  # how many records have what no line holds
        self.last = -1
        self.ids = set()

    def add(self, kind, record, name):
        """Adds the record's line, or why there is none."""
        try:
            self.lines.append(self.made(kind, record) + b"\n")
        except LeftOut as why:
            self.left_out.append(f"{name} is left out: {why}")

    def made(self, kind, record):
        if not isinstance(record, dict):
            raise LeftOut("it is no object")
        line = MAKE[kind](record, self.shard, self.moment)
        made = compact(line)
        if kind == "queue":
            self.received(line["messageId"])
            self.lost["MessageAttributes"] += "MessageAttributes" in record
        else:
            place, name = (record, "sequenceNumber") if kind == "stream" else (record["dynamodb"], "SequenceNumber")
            number = line.get(name) or line["dynamodb"][name]
            self.above(int(number))
            self.lost["zeros before the SequenceNumber"] += number != place["SequenceNumber"]
            self.lost["userIdentity"] += "userIdentity" in record
        return made

    def received(self, name):
        if name in self.ids:
            raise LeftOut("it was received before")
        self.ids.add(name)

    def above(self, number):
        if number <= self.last:
            raise LeftOut(f"its SequenceNumber is not above the last one, {self.last}")
        self.last = number


# outputs of the command line


def documents(name, whole):
    """The JSON values that stand one behind the other."""
    at = 0
    try:
        whole = whole.decode()
        while (at := SPACE.match(whole, at).end()) < len(whole):
            document, at = DECODER.raw_decode(whole, at)
            yield document
    except (ValueError, RecursionError):
        raise Refused(f"{name}: no JSON at character {at}; the AWS command line prints it with --output json") from None


def records_of(document):
    """The records of one output, each with its kind."""
    if isinstance(document, dict) and isinstance(document.get("Messages"), list):
        return [("queue", message) for message in document["Messages"]]
    if isinstance(document, dict) and isinstance(document.get("Records"), list):
        return [("table" if isinstance(it, dict) and "dynamodb" in it else "stream", it) for it in document["Records"]]
    raise Refused("no output of get-records or receive-message: it has neither Records nor Messages")


def name_of(number, record):
    """What a record is called where it is told."""
    record = record if isinstance(record, dict) else {}
    change = record["dynamodb"] if isinstance(record.get("dynamodb"), dict) else {}
    name = record.get("MessageId") or record.get("SequenceNumber") or change.get("SequenceNumber")
    return f"record {number}, {name}," if isinstance(name, str) else f"record {number}"


def read(files, shard, moment):
    """The input that the records of these files make."""
    found = [pair for file in files for document in documents(*file) for pair in records_of(document)]
    kinds = sorted({kind for kind, _ in found})
    if len(kinds) > 1:
        raise Refused(f"records of two kinds: of a {' and of a '.join(kinds)}")
    if shard is None and kinds not in ([], ["queue"]):
        raise Refused("the output of get-records does not tell its shard: give it with --shard")
    made = Input(shard, moment)
    for number, (kind, record) in enumerate(found, 1):
        made.add(kind, record, name_of(number, record))
    return made


def counted(count, what):
    return f"{count} {what}" if count == 1 else f"{count} {what}s"


# words


def shard_id(word):
    found = re.fullmatch("(?:shardId-(?=[0-9]{12}$))?([0-9]{1,12})", word)
    if not found:
        raise argparse.ArgumentTypeError("a shard is shardId- and twelve digits, or its number")
    return f"shardId-{int(found[1]):012}"


def moment_word(word):
    if not re.fullmatch("[0-9]{1,15}", word) or int(word) > MOST_MOMENT:
        raise argparse.ArgumentTypeError("a moment is a number of milliseconds since 1970")
    return int(word)


def main():
    words = argparse.ArgumentParser(description=__doc__, formatter_class=argparse.RawDescriptionHelpFormatter)
    words.add_argument("files", nargs="*", metavar="FILE", help="outputs of the AWS command line (standard input)")
    words.add_argument("--shard", type=shard_id, help="the shard of all records: its id, or its number")
    words.add_argument("--moment", type=moment_word, help="the moment of records that tell none, in milliseconds since 1970")
    chosen = words.parse_args()
    try:
        files = [(name, Path(name).read_bytes()) for name in chosen.files] or [("standard input", sys.stdin.buffer.read())]
        made = read(files, chosen.shard, chosen.moment)
    except (Refused, OSError) as why:
        print(f"from_aws: {why}", file=sys.stderr)
        return 2
    sys.stdout.buffer.write(b"".join(made.lines))
    told = [*made.left_out, *(f"no line holds the {what} of {counted(it, 'record')}" for what, it in (+made.lost).items())]
    if made.left_out:
        told.append(f"{counted(len(made.lines), 'line')}, {counted(len(made.left_out), 'record')} left out")
    for line in told:
        print(f"from_aws: {line}", file=sys.stderr)
    return 1 if made.left_out else 0


if __name__ == "__main__":
    sys.exit(main())
