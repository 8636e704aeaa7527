#!/usr/bin/env python3
"""Counts the messages of each key in a scenario from standard input, without any shard: for each journal and producer,
a message counts where its clock is above all earlier ones. It knows no transactions. It writes the counts as JSON."""
import json
import sys

counts = {}
greatest = {}
for line in sys.stdin.buffer:
    event = json.loads(line)
    if event["do"] != "publish":
        continue
    producer = event["journal"], event.get("producer", 1)
    for message in event["messages"]:
        if message["clock"] > greatest.get(producer, -1):
            greatest[producer] = message["clock"]
            key = message.get("key", "")
            counts[key] = counts.get(key, 0) + 1
print(json.dumps(counts, separators=(",", ":"), sort_keys=True, ensure_ascii=False))
