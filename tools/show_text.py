#!/usr/bin/env python3
"""The text that `showlist` prints for a deployment file, by docs/DECISIONS.md alone: nothing here is shared with the Rattle sources.

    tools/show_text.py FILE
"""
import ipaddress
import sys
from pathlib import Path

from deployment_file import listed, number, read

RULE = 30  # a rule's field: a head of three bytes, and 27
NAMES = {1: "app", 2: "del", 3: "ins", 4: "del", 5: "mov"}
BOTH = (3, 5)  # codes whose commands have two numbers


def value(width, n):
    return str(ipaddress.IPv4Address(n)) if width == 4 else str(n)


def span(width, low, high):
    if (low, high) == (0, 256 ** width - 1):
        return "any"
    return value(width, low) if low == high else value(width, low) + "-" + value(width, high)


def rule_line(k, rule):
    def at(start, width):
        return span(width, number(rule[start:start + width]), number(rule[start + width:start + 2 * width]))

    return (f"{k} {'permit' if rule[0] else 'deny'} protocol {at(1, 1)} source {at(3, 4)} port {at(11, 2)}"
            f" destination {at(15, 4)} port {at(23, 2)}")


def list_lines(name, numbers):
    return [f"{name} {len(numbers)}"] + ([" ".join(map(str, numbers))] if numbers else [])


def script_lines(script):
    commands = [script[i:i + 5] for i in range(1, len(script), 5)]
    lines = [f"script type {script[0]} commands {len(commands)}"]
    for step, c in enumerate(commands, 1):
        second = f" {number(c[3:])}" if c[0] in BOTH else ""
        lines.append(f"{step} {NAMES[c[0]]} {number(c[1:3])}{second}")
    return lines


def show(file):
    """The whole text, as bytes."""
    words = read(file).split()
    if words[0] == "refused":
        return (" ".join(words) + "\n").encode()
    places, i = {}, 2
    while i < len(words):
        if words[i + 1] == "none":
            places[words[i]], i = None, i + 2
        else:
            start, size = int(words[i + 1]), int(words[i + 2])
            places[words[i]], i = file[start:start + size], i + 3
    rules = int(words[1])
    lines = [f"rules {rules}"] + [rule_line(k, file[k * RULE + 3:(k + 1) * RULE]) for k in range(rules)]
    lines += list_lines("initial", listed(places["initial"])) + list_lines("target", listed(places["target"]))
    lines.append("default deny" if places["default"] is None else "default permit")
    lines += ["keep absent"] if places["keep"] is None else list_lines("keep", listed(places["keep"]))
    lines += ["script absent"] if places["script"] is None else script_lines(places["script"])
    return ("\n".join(lines) + "\n").encode()


if __name__ == "__main__":
    sys.stdout.buffer.write(show(Path(sys.argv[1]).read_bytes()))
