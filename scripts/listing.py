#!/usr/bin/env python3
"""Prints the report that `station` owes for a recording of whole replies.

An independent reading of the protocol's rules, written for the stored outputs only: it takes
well-formed recordings and no others. Usage: scripts/listing.py < RECORDING
"""
import sys


def line(data, at):
    end = data.index(b"\r\n", at)
    return data[at + 1:end], end + 2


def shown(text):
    out = ""
    for byte in text[:60]:
        out += chr(byte) if 32 <= byte <= 126 and byte != 92 else "\\x%02x" % byte
    return out + (".." if len(text) > 60 else "")


LINES = {"+": "simple string", "-": "error", ":": "integer", "#": "boolean", ",": "double", "(": "big number"}
BODIES = {"$": "bulk string", "!": "error", "=": "verbatim string"}


def notes(data, at, level, out):
    kind = chr(data[at])
    content, end = line(data, at)
    row = [at, level, None, None]
    out.append(row)
    if kind == "_" or (kind in "$*" and content == b"-1"):
        row[3] = "nil"
    elif kind == "+" and content == b"OK":
        row[3] = "okay"
    elif kind in LINES:
        row[3] = LINES[kind] + " " + shown(content)
    elif kind in BODIES:
        size = int(content)
        row[3] = BODIES[kind] + " " + shown(data[end:end + size])
        end += size + 2
    else:
        count = int(content)
        words, items = {
            "*": ("array, items: %d" % count, count),
            "~": ("set, members: %d" % count, count),
            ">": ("push, items: %d" % count, count),
            "%": ("map, pairs: %d" % count, 2 * count),
            "|": ("attribute, pairs: %d, then its data" % count, 2 * count + 1),
        }[kind]
        row[3] = words
        for _ in range(items):
            end = notes(data, end, level + 1, out)
    row[2] = end
    return end


def main():
    data = sys.stdin.buffer.read()
    if not data:
        print("the recording is empty")
        return
    at = number = 0
    while at < len(data):
        out = []
        number += 1
        print("reply %d" % number)
        at = notes(data, at, 0, out)
        for begin, level, end, words in out:
            print("%sat %d, %d bytes: %s" % ("  " * level, begin, end - begin, words))
    print("replies: %d, bytes: %d" % (number, at))


main()
