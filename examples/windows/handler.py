"""Sums the cents of each window: what it returns as `state` is handed to it at the next call for the window."""

import base64
import json


def handler(event, context):
    total = event["state"].get("cents", 0)
    if event["isFinalInvokeForWindow"]:
        print(event["window"]["start"], event["window"]["end"], "total", total, flush=True)
        return None
    for record in event["Records"]:
        order = json.loads(base64.b64decode(record["kinesis"]["data"]))
        total += order["cents"]
        print(event["window"]["start"], event["window"]["end"], "order", order["order"], flush=True)
    return {"state": {"cents": total}}
