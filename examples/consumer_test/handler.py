"""The consumer under test: it bills the orders of a stream, and raises at one that it cannot bill."""

import base64
import json
import sys
import time


def handler(event, context):
    log(sequenceNumbers=[record["kinesis"]["sequenceNumber"] for record in event["Records"]])
    for record in event["Records"]:
        bill(json.loads(base64.b64decode(record["kinesis"]["data"])))


def bill(order):
    time.sleep(0.02)  # the work
    if order["cents"] < 0:
        raise ValueError(f"order {order['order']} has {order['cents']} cents")


def log(**entry):
    """Writes a line of the call at its start, at once: a test reads it, as CloudWatch would."""
    sys.stdout.write(json.dumps(entry) + "\n")
    sys.stdout.flush()
