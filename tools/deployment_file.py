"""The deployment file, read by the requirements alone: nothing here is shared with the Rattle sources.

`show_text.py` and `streams_test` import this for a reading that gives the line of a file, its refusal or where its values stand, and for pieces
of files; the picture for what a file has.
"""


def number(b):
    return int.from_bytes(b, "big")


def field(tag, value, size=None):
    return bytes([tag]) + (len(value) if size is None else size).to_bytes(2, "big") + value


def rule(n, action=1):
    return bytes([action, 0, 255]) + n.to_bytes(4, "big") + b"\xff" * 4 + b"\0\0\xff\xff" + b"\0" * 4 + b"\xff" * 4 + b"\0\0\xff\xff"


def occurs(keep, policy):
    it = iter(policy)
    return all(k in it for k in keep)


def listed(value):
    return [number(value[i:i + 2]) for i in range(0, len(value), 2)]


def value_fault(tag, value, rules, policies):
    if tag == 1:
        ends = [(1, 1), (3, 4), (11, 2), (15, 4), (23, 2)]
        if value[0] > 1 or any(number(value[a:a + w]) > number(value[a + w:a + 2 * w]) for a, w in ends):
            return 5
        return 6 if value in rules else 0
    if tag in (2, 3):
        ns = listed(value)
        if any(n >= len(rules) for n in ns):
            return 8
        return 9 if len(set(ns)) < len(ns) else 0
    if tag == 6:
        return 0 if value == b"\x01" else 50
    if tag == 4:
        return 0 if all(occurs(listed(value), p) for p in policies) else 10
    if value[0] not in (1, 2):
        return 11
    for i in range(1, len(value), 5):
        code, two = value[i], number(value[i + 3:i + 5])
        legal = (code in (1, 2) and two == 0) if value[0] == 1 else (code in (3, 5) or code == 4 and two == 0)
        if not legal:
            return 11
    return 0


def length_fits(tag, size):
    if tag == 1:
        return size == 27
    if tag == 6:
        return size == 1
    if tag == 5:
        return size % 5 == 1 and size <= 1 + 5 * 2048
    return size % 2 == 0 and size <= 1024


def read(f):
    """The line for a file: its refusal, or the places of its values."""
    at, nexts, rules, policies, spans = 0, {1, 2}, [], [], {}
    after = {1: {1, 2}, 2: {3}, 3: {6, 4, 5}, 6: {4, 5}, 4: {5}, 5: set()}
    while at < len(f):
        if len(f) - at < 3:
            return f"refused 1 at {at}"
        tag, size = f[at], number(f[at + 1:at + 3])
        if tag not in nexts:
            return f"refused 2 at {at}"
        if tag == 1 and len(rules) == 1024:
            return f"refused 7 at {at}"
        if not length_fits(tag, size):
            return f"refused 4 at {at}"
        value = f[at + 3:at + 3 + size]
        if len(value) < size:
            return f"refused 1 at {at}"
        fault = value_fault(tag, value, rules, policies)
        if fault:
            return f"refused {fault} at {at}"
        if tag == 1:
            rules.append(value)
        else:
            spans[tag] = (at + 3, size)
        if tag in (2, 3):
            policies.append(listed(value))
        nexts = after[tag]
        at += 3 + size
    if 3 not in spans:
        return f"refused 3 at {at}"
    words = [f"rules {len(rules)}"]
    for tag, name in ((2, "initial"), (3, "target"), (6, "default"), (4, "keep"), (5, "script")):
        words.append(f"{name} {spans[tag][0]} {spans[tag][1]}" if tag in spans else f"{name} none")
    return " ".join(words)


NAMES = {1: "app", 2: "del", 3: "ins", 4: "del", 5: "mov"}


def commands(value):
    """The commands of a script value, each its name and the numbers that it uses."""
    taken = []
    for i in range(1, len(value), 5):
        code, one, two = value[i], number(value[i + 1:i + 3]), number(value[i + 3:i + 5])
        taken.append((NAMES[code], one, two) if code in (3, 5) else (NAMES[code], one))
    return taken


def contents(f):
    """What an accepted file has: its rules, the lists of its policies, their default, and the keep list and the script, or None."""
    words = read(f).split()
    if words[0] == "refused":
        return None
    values = {}
    at = 2
    for name in ("initial", "target", "default", "keep", "script"):
        absent = words[at + 1] == "none"
        values[name] = None if absent else f[int(words[at + 1]):int(words[at + 1]) + int(words[at + 2])]
        at += 2 if absent else 3
    taken = {name: None if values[name] is None else listed(values[name]) for name in ("initial", "target", "keep")}
    taken["default"] = "deny" if values["default"] is None else "permit"
    taken["rules"] = [f[30 * k + 3:30 * k + 30] for k in range(int(words[1]))]
    taken["script"] = None if values["script"] is None else (values["script"][0], commands(values["script"]))
    return taken
