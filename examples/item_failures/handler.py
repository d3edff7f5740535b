"""Prints the orders of each call, and reports those that it could not bill.

An order with less than zero cents fails always; for the orders 104 and 107 the bank is busy at the first attempt.
"""

import base64
import json

busy = {"104", "107"}


def handler(event, context):
    print(*(record["kinesis"]["sequenceNumber"] for record in event["Records"]), flush=True)
    failed = [record["kinesis"]["sequenceNumber"] for record in event["Records"] if not bill(record["kinesis"])]
    return {"batchItemFailures": [{"itemIdentifier": number} for number in failed]}


def bill(record):
    if record["sequenceNumber"] in busy:
        busy.remove(record["sequenceNumber"])
        return False
    return json.loads(base64.b64decode(record["data"]))["cents"] >= 0
