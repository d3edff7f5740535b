"""Prints the orders of each call, and raises at one that it cannot bill."""

import base64
import json


def handler(event, context):
    print(*(record["kinesis"]["sequenceNumber"] for record in event["Records"]), flush=True)
    for record in event["Records"]:
        order = json.loads(base64.b64decode(record["kinesis"]["data"]))
        if order["cents"] < 0:
            raise ValueError(f"order {order['order']} has {order['cents']} cents")
