#!/usr/bin/env python3
"""Turns the vectors of `fuseworld vectors` on standard input into the lines that tests/codec_vectors.c reads."""
import json
import sys

for line in sys.stdin:
    vector = json.loads(line)
    direction = ">" if vector["direction"] == "request" else "<"
    print(direction, vector["opcode"] or 0, vector["minor"], vector.get("number", 0), vector["hex"] or "-")
