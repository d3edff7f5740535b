"""Prints each change as the function gets it."""

import json


def handler(event, context):
    for record in event["Records"]:
        print(json.dumps(record, separators=(",", ":")), flush=True)
