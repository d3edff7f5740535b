"""Prints each message with its group and how often it was received, and raises when it receives order 1 first."""


def handler(event, context):
    for record in event["Records"]:
        attributes = record["attributes"]
        line = f'{attributes["MessageGroupId"]} {record["messageId"]} receive {attributes["ApproximateReceiveCount"]}'
        print(line + "\n", end="", flush=True)  # in one write, since the calls of two groups may run at once
        if record["messageId"] == "order-1" and attributes["ApproximateReceiveCount"] == "1":
            raise RuntimeError("the bank is busy")
