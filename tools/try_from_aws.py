"""Cases of `try_program.py` on `from_aws.py`: what the AWS command line prints becomes lines, and the program runs over them.

The outputs are those that AWS documents: GetRecords of the Kinesis API reference, and `sqs receive-message` and
`dynamodbstreams get-records` of the AWS CLI command reference.
"""

import base64
import json
import subprocess
import sys
from pathlib import Path

from trial import OK, QUEUE, STREAM, always, shard_line, text_of

FROM_AWS = Path(__file__).with_name("from_aws.py")
TABLE = STREAM | {"EventSourceArn": "arn:aws:dynamodb:us-west-1:123456789012:table/Music/stream/2019-10-22T18:02:01.576"}
MOST = 1_048_576

KINESIS = """{
    "MillisBehindLatest": 2100,
    "NextShardIterator": "AAAAAAAAAAHsW8zCWf9164uy8Epue6WS3w6wmj4a4USt",
    "Records": [
        {
            "Data": "XzxkYXRhPl8w",
            "PartitionKey": "partitionKey",
            "ApproximateArrivalTimestamp": 1.441215410867E9,
            "SequenceNumber": "21269319989652663814458848515492872193"
        }
    ]
}"""
KINESIS_LINE = (
    '{"shardId":"shardId-000000000003","sequenceNumber":"21269319989652663814458848515492872193",'
    '"partitionKey":"partitionKey","data":"XzxkYXRhPl8w","approximateArrivalTimestamp":1441215410867}')
MESSAGES = """{
    "Messages": [
        {
            "Body": "My first message.",
            "ReceiptHandle": "AQEBzbVv...fqNzFw==",
            "MD5OfBody": "1000f835...a35411fa",
            "MD5OfMessageAttributes": "9424c491...26bc3ae7",
            "MessageId": "d6790f8d-d575-4f01-bc51-40122EXAMPLE",
            "Attributes": {
                "ApproximateFirstReceiveTimestamp": "1442428276921",
                "SenderId": "AIDAIAZKMSNQ7TEXAMPLE",
                "ApproximateReceiveCount": "5",
                "SentTimestamp": "1442428276921"
            },
            "MessageAttributes": {
                "PostalCode": {"DataType": "String", "StringValue": "ABC123"},
                "City": {"DataType": "String", "StringValue": "Any City"}
            }
        }
    ]
}"""
MESSAGES_LINE = (
    '{"messageId":"d6790f8d-d575-4f01-bc51-40122EXAMPLE","body":"My first message.","sentTimestamp":1442428276921}')
CHANGES = """{
    "Records": [
        {
            "eventID": "878960a6967867e2da16b27380a27328",
            "eventName": "INSERT",
            "eventVersion": "1.1",
            "eventSource": "aws:dynamodb",
            "awsRegion": "us-west-1",
            "dynamodb": {
                "ApproximateCreationDateTime": 1571849029.0,
                "Keys": {"Artist": {"S": "Acme Band"}, "SongTitle": {"S": "Happy Day"}},
                "NewImage": {
                    "AlbumTitle": {"S": "Songs About Life"}, "Artist": {"S": "Acme Band"},
                    "Awards": {"N": "10"}, "SongTitle": {"S": "Happy Day"}
                },
                "SequenceNumber": "800000000013256297217",
                "SizeBytes": 100,
                "StreamViewType": "NEW_AND_OLD_IMAGES"
            }
        }
    ],
    "NextShardIterator": "arn:aws:dynamodb:us-west-1:123456789012:table/Music/stream/2019-10-23T16:41:08.740|1|AAAAAAAAAAEhEI04jkFLW"
}"""
CHANGES_LINE = (
    '{"shardId":"shardId-000000000000","approximateArrivalTimestamp":1571849029000,'
    '"eventID":"878960a6967867e2da16b27380a27328","eventName":"INSERT","dynamodb":{'
    '"Keys":{"Artist":{"S":"Acme Band"},"SongTitle":{"S":"Happy Day"}},'
    '"NewImage":{"AlbumTitle":{"S":"Songs About Life"},"Artist":{"S":"Acme Band"},"Awards":{"N":"10"},'
    '"SongTitle":{"S":"Happy Day"}},'
    '"SequenceNumber":"800000000013256297217","SizeBytes":100,"StreamViewType":"NEW_AND_OLD_IMAGES"}}')
NO_ATTRIBUTES = "no line holds the MessageAttributes of 1 record"


def turned(t, text, status, lines, told=(), options=()):
    """Runs the tool over this text, and compares the lines, what it tells and its status."""
    text = text if isinstance(text, str) else json.dumps(text)
    ended = subprocess.run([sys.executable, FROM_AWS, *options], input=text, capture_output=True, encoding="utf-8")
    t.same("lines", text_of(lines), ended.stdout)
    t.same("told", text_of(f"from_aws: {line}" for line in told), ended.stderr)
    t.same("status of from_aws", status, ended.returncode)


def page(*records):
    return {"Records": records}


def taken(number, **other):
    """A record of a stream as the command line prints it, and its line."""
    record = {"SequenceNumber": str(number), "ApproximateArrivalTimestamp": 0, "Data": "SGVsbG8=", "PartitionKey": "1"}
    return record | other


def line_of(number, arrival=0, data="SGVsbG8="):
    return (f'{{"shardId":"shardId-000000000000","sequenceNumber":"{number}","partitionKey":"1","data":"{data}",'
            f'"approximateArrivalTimestamp":{arrival}}}')


SHARD = ("--shard", "0")


def aws_stream(t):
    """The documented output, in which the moment is a number, and what a later command line prints of it."""
    for moment in ("1.441215410867E9", '"2015-09-02T10:36:50.867000-07:00"', '"2015-09-02T17:36:50.867Z"'):
        for shard in ("3", "shardId-000000000003"):
            turned(t, KINESIS.replace("1.441215410867E9", moment), 0, [KINESIS_LINE], options=("--shard", shard))
    f = t.function(always(OK))
    t.run(STREAM, 0, [shard_line(1, 1, succeeded=1, shard=3), "calls 1", "done"], f.port, [KINESIS_LINE])
    t.same("event", {
        "kinesisSchemaVersion": "1.0", "partitionKey": "partitionKey", "sequenceNumber": "21269319989652663814458848515492872193",
        "data": "XzxkYXRhPl8w", "approximateArrivalTimestamp": 1441215410.867,
    }, f.events[0]["Records"][0]["kinesis"])


def aws_queue(t):
    turned(t, MESSAGES, 0, [MESSAGES_LINE], [NO_ATTRIBUTES])
    t.run(QUEUE, 0, ["queue messages 1 deleted 1 succeeded 1 filtered 0", "calls 1", "done"], lines_in=[MESSAGES_LINE])
    group = MESSAGES.replace('"SenderId"', '"MessageGroupId": "A", "SenderId"')
    turned(t, group, 0, [MESSAGES_LINE[:-1] + ',"messageGroupId":"A"}'], [NO_ATTRIBUTES])


def aws_table(t):
    turned(t, CHANGES, 0, [CHANGES_LINE], options=SHARD)
    f = t.function(always(OK))
    t.said(["ddb", "--config", json.dumps(TABLE)], 0, [shard_line(1, 1, succeeded=1), "calls 1", "done"], f.port, [CHANGES_LINE])
    wanted = json.loads(CHANGES)["Records"][0] | {"eventSourceARN": TABLE["EventSourceArn"]}
    t.same("event", wanted, f.events[0]["Records"][0])


def aws_pages(t):
    """Outputs one behind the other; the command line prints nothing where no message came."""
    turned(t, "", 0, [])
    turned(t, '{"Records": [], "MillisBehindLatest": 80742000}', 0, [])
    turned(t, json.dumps(page(taken(1))) + "\n" + json.dumps(page()) + json.dumps(page(taken(2), taken(3))), 0,
           [line_of(1), line_of(2), line_of(3)], options=SHARD)
    turned(t, page(taken(1), taken(3), taken(2), taken(3), taken(4)), 1, [line_of(1), line_of(3), line_of(4)], [
        "record 3, 2, is left out: its SequenceNumber is not above the last one, 3",
        "record 4, 3, is left out: its SequenceNumber is not above the last one, 3",
        "3 lines, 2 records left out"], SHARD)
    turned(t, page(taken("0007"), taken("0008", userIdentity={"Type": "Service"})), 0, [line_of(7), line_of(8)], [
        "no line holds the zeros before the SequenceNumber of 2 records", "no line holds the userIdentity of 1 record"], SHARD)
    turned(t, MESSAGES + MESSAGES, 1, [MESSAGES_LINE], [
        "record 2, d6790f8d-d575-4f01-bc51-40122EXAMPLE, is left out: it was received before", NO_ATTRIBUTES,
        "1 line, 1 record left out"])


def aws_left_out(t):
    """What the program would refuse, and a record that has just what it takes."""

    def left_out(record, why, name="record 1, 1,"):
        turned(t, page(record), 1, [], [f"{name} is left out: {why}", "0 lines, 1 record left out"], SHARD)

    most, more = (base64.b64encode(bytes(count)).decode() for count in (MOST, MOST + 1))
    turned(t, page(taken(1, Data=most)), 0, [line_of(1, data=most)], options=SHARD)
    left_out(taken(1, Data=more), "its Data has 1048577 bytes")
    for data in ("SGVsbG8", "SGVsbG9=", "SGVsb G8=", "é"):
        left_out(taken(1, Data=data), "its Data is not base64")
    left_out(taken(1, PartitionKey=""), 'its PartitionKey is ""')
    left_out(taken(1, PartitionKey="k" * 257), 'its PartitionKey is "' + "k" * 79)
    turned(t, page(taken(1, PartitionKey="é" * 256)), 0, [line_of(1).replace('"1","data"', f'"{"é" * 256}","data"')], options=SHARD)
    left_out({"SequenceNumber": "1", "PartitionKey": "1"}, "it has no Data")
    for moment in ("2015-09-02T10:36:50", "soon", -1, 253402300800, True, float("nan")):
        left_out(taken(1, ApproximateArrivalTimestamp=moment), f"its ApproximateArrivalTimestamp is {json.dumps(moment)}")
    turned(t, page(taken(1, ApproximateArrivalTimestamp=253402300799.9999)), 0, [line_of(1, 253402300799999)], options=SHARD)
    left_out(7, "it is no object", "record 1")
    change = json.loads(CHANGES)["Records"][0]
    number = "record 1, 800000000013256297217,"
    for member, value, why in (
            ("Keys", {}, "its Keys are not those of an item"), ("Keys", {"a": {"BOOL": True}}, "its Keys are not those of an item"),
            ("NewImage", {"a": {"NULL": False}}, "its NewImage has what is no attribute value"),
            ("NewImage", {"a": {"S": "x" * MOST}}, None),
            ("SizeBytes", 1.5, "its SizeBytes is 1.5"), ("StreamViewType", "ALL", 'its StreamViewType is "ALL"')):
        spoilt = change | {"dynamodb": change["dynamodb"] | {member: value}}
        fixed = json.dumps(spoilt | {"eventSourceARN": ""}, separators=(",", ":")).replace("1571849029.0", "1571849029")
        left_out(spoilt, why or f"its change has {len(fixed)} bytes", number)
    message = json.loads(MESSAGES)["Messages"][0]
    for member, value, why in (("Attributes", {}, "it has no SentTimestamp"), ("Attributes", 5, "it has no SentTimestamp"),
                               ("Body", "\x00", 'its Body is "\\u0000"'),
                               ("Body", "x" * (MOST + 1), "its Body has 1048577 bytes"),
                               ("Body", "é" * (MOST // 2 + 1), "its Body has 1048578 bytes")):
        turned(t, {"Messages": [message | {member: value}]}, 1, [], [
            f"record 1, d6790f8d-d575-4f01-bc51-40122EXAMPLE, is left out: {why}", "0 lines, 1 record left out"])
    turned(t, {"Messages": [message | {"Attributes": {}}]}, 0, [MESSAGES_LINE], [NO_ATTRIBUTES], ("--moment", "1442428276921"))


def aws_refused(t):
    """Words and inputs of which nothing is read."""
    turned(t, KINESIS, 2, [], ["the output of get-records does not tell its shard: give it with --shard"])
    turned(t, KINESIS + MESSAGES, 2, [], ["records of two kinds: of a queue and of a stream"], SHARD)
    turned(t, KINESIS[:-1], 2, [], ["standard input: no JSON at character 0; the AWS command line prints it with --output json"])
    turned(t, '{"Streams": []}', 2, [], ["no output of get-records or receive-message: it has neither Records nor Messages"])
    for words in (["--shard", "shardId-00000001414576573621-f55eea83"], ["--shard", "shardId-3"], ["--moment", "-1"], ["--what"]):
        ended = subprocess.run([sys.executable, FROM_AWS, *words], input="", capture_output=True, text=True)
        t.same(f"status of {words}", (2, ""), (ended.returncode, ended.stdout))


CASES = [aws_stream, aws_queue, aws_table, aws_pages, aws_left_out, aws_refused]
