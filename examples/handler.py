"""A Lambda handler for Kinesis records that reports which of them failed.

Each record's data is the base64 of a JSON object, an order. A record whose data is no JSON object, or whose `cents` are
below zero, failed. The answer names the first such record by its sequence number (Lambda Developer Guide, "Reporting batch
item failures"): Lambda counts the records before it as done, and calls the function again from it on.

    python3 tools/function_host.py examples/handler.py --port 9001
"""

import base64
import json


def handler(event, context):
    failures = []
    for record in event["Records"]:
        if not succeeds(record):
            failures.append({"itemIdentifier": record["kinesis"]["sequenceNumber"]})
            break
    return {"batchItemFailures": failures}


def succeeds(record):
    try:
        order = json.loads(base64.b64decode(record["kinesis"]["data"]))
    except ValueError:
        return False
    return isinstance(order, dict) and order.get("cents", 0) >= 0
