"""Prints the orders of each call."""


def handler(event, context):
    print(*(record["kinesis"]["sequenceNumber"] for record in event["Records"]), flush=True)
