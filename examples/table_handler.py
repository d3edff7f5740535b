"""A Lambda handler for the changes of a DynamoDB table's items that reports which of them failed.

A change whose new item has `cents` below zero failed. The answer names the first such change by its sequence number (Lambda
Developer Guide, "Using Lambda with DynamoDB", reporting batch item failures): Lambda counts the changes before it as done,
and calls the function again from it on. A removed item has no new image; the mapping's filter keeps it away.

    python3 tools/function_host.py examples/table_handler.py --port 9003
"""


def handler(event, context):
    failures = []
    for record in event["Records"]:
        order = record["dynamodb"]["NewImage"]
        if int(order["cents"]["N"]) < 0:
            failures.append({"itemIdentifier": record["dynamodb"]["SequenceNumber"]})
            break
    return {"batchItemFailures": failures}
