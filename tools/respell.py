#!/usr/bin/env python3
"""Brings the names of this repository's own definitions and lemmas to the spelling of today's Rattle: words in snake case.

Run once, at the top of the repository, after the kit's port.py: `python3 tools/respell.py`. It goes by text. A name is turned where a
file declares it or imports it from a crate of this repository, and where it is a field of one of the repository's own records; names
that the kit or its libraries own stay. Where a lemma would fall together with a definition, the lemma gets `_lem`.
"""
import collections
import glob
import re
import sys

OWN = {line.split(":")[0].split()[0] for line in open("crates.txt") if line.strip() and not line.startswith("#")}
# Numbers of bytes, each beside a function of the same words that gives those bytes, and one row of a table.
PLAIN = {
    "decision-bytes": "decision_width",
    "default-bytes": "default_width",
    "default-value": "value_of_default",
    "field-bytes": "field_width",
    "flow-bytes": "flow_width",
    "rule-bytes": "rule_width",
}
# These are turned wherever they stand, as names of arguments too.
EVERYWHERE = {**PLAIN, "source-port": "source_port", "destination-port": "destination_port"}
TOKEN = re.compile(r"[^\s(){}\[\];,.:\"`]+")
DECLARED = re.compile(r"^(\s*)((?:pub |unfoldable |abbrev )*)([^\s:()←→{}]+)(?: *(?:[({].*)?)? :(?: |$)")
LET = re.compile(r"\blet ([^\s:()={}]+)(?= [:=])")
USE = re.compile(r"^(?:ghost )?(?:pub )?use ([^\s{;]+?)(?:\.\{([^}]*)\}| as \S+?)?;?[ \t]*$", re.M)


def antt_files():
    for kind in ("specs", "proofs"):
        for path in sorted(glob.glob(f"crates/*/{kind}/**/*.antt", recursive=True)):
            if "/out/" not in path:
                yield path


def by_hand(path):
    """Whether the file is a proof that walks a function's code: what it declares is named by the kit."""
    return path.endswith("/Proof.antt")


def snake(name):
    name = name.replace("-", "_")
    return re.sub(r"(?<=[a-z0-9])([A-Z])", lambda m: "_" + m.group(1).lower(), name)


def old_form(name):
    return name[0].islower() and bool(re.search("[A-Z-]", name))


def declarations(text):
    return [m for m in map(DECLARED.match, text.split("\n")) if m and not m.group(0).lstrip().startswith("--")]


def gather():
    """Every name that a file of definitions or lemmas declares, and the fields and constructors among them."""
    names, fields = set(), set()
    for path in antt_files():
        if by_hand(path):
            continue
        for m in declarations(open(path).read()):
            names.add(m.group(3))
            if m.group(1):
                fields.add(m.group(3))
    return names, fields


def spelling(names):
    """New spelling by old one: a definition, in mixed case, keeps the plain name and a lemma that would share it gets `_lem`."""
    taken = collections.defaultdict(list)
    for name in sorted(names):
        taken[snake(name)].append(name)
    new = {}
    for plain, olds in taken.items():
        mixed = [n for n in olds if re.search("[A-Z]", n) and n[0].islower()]
        for name in olds:
            if len(olds) > 1 and (name not in mixed if mixed else name != plain):
                new[name] = plain + "_lem"
            elif old_form(name):
                new[name] = plain
        if len(mixed) > 1 or len(olds) > 2:
            print("fall together:", plain, olds)
    return {old: name for old, name in {**new, **PLAIN}.items() if old != name}


def imports(text):
    """Names that a file imports from its own repository, and those from elsewhere."""
    own, foreign = set(), set()
    for m in USE.finditer(text):
        parts = m.group(1).split(".")
        listed = {n.strip().split(" as ")[0] for n in (m.group(2) or "").split(",") if n.strip()}
        is_own = parts[0] == "Rattle" and len(parts) > 1 and parts[1] in OWN
        (own if is_own else foreign).update(listed)
    return own, foreign


def turned(text, here, anywhere, comment_too=True):
    """The text with the tokens of `here` turned, those of `anywhere` after a dot or before '=' too."""
    out = []
    for line in text.split("\n"):
        code, dashes, remark = line, "", ""
        cut = re.search(r"(^|\s)--(\s|$)", line)
        if cut:
            code, remark = line[: cut.start()], line[cut.start() :]

        def one(m):
            word, before = m.group(0), code[: m.start()]
            if before.endswith("."):
                stem = re.search(r"([^\s(){}\[\];,.:\"`]+)\.$", before)
                module = bool(stem) and stem.group(1)[:1].isupper()
                return anywhere.get(word, word) if (word in FIELDS or module and word in here) else word
            if word in here or word in EVERYWHERE:
                return {**EVERYWHERE, **here}[word]
            if word in FIELDS and re.match(r"\s*=(\s|$)", code[m.end() :]) and re.search(r"(^|[{;])\s*$", before):
                return anywhere.get(word, word)
            return word

        code = TOKEN.sub(one, code)
        remark = re.sub(r"`[^`]*`", lambda m: TOKEN.sub(lambda t: anywhere.get(t.group(0), t.group(0)), m.group(0)), remark)
        remark = re.sub(r"\b[a-z]\w*[A-Z]\w*", lambda m: anywhere.get(m.group(0), m.group(0)), remark)
        out.append(code + remark)
    return "\n".join(out)


def write(path, old, new):
    if old != new:
        open(path, "w").write(new)


def respell_antt(new):
    for path in antt_files():
        text = open(path).read()
        own, foreign = imports(text)
        here = set(own)
        if not by_hand(path):
            here |= {m.group(3) for m in declarations(text)}
            lets = {n for n in LET.findall(text) if old_form(n) and n not in new}
        else:
            lets = set()
        table = {n: new[n] for n in here if n in new and (n not in foreign or n in own)}
        used = set(TOKEN.findall(text))
        for n in lets - foreign:
            if snake(n) not in used:
                table[n] = snake(n)
        for n in {n for n in LET.findall(text) if old_form(n) and n in new and n not in table} - foreign:
            if snake(n) not in used and not by_hand(path):
                table[n] = snake(n)
        write(path, text, turned(text, table, new))


def respell_rt(new):
    for path in sorted(glob.glob("crates/*/src/**/*.rt", recursive=True)):
        text = open(path).read()
        own, _ = imports(text)
        table = {n: new[n] for n in own if n in new}
        out = []
        depth = 0
        for line in text.split("\n"):
            bare = line.strip()
            clause = bool(re.match(r"(requires|ensures|ghost|invariant)\b", bare)) or depth > 0
            if bare.startswith("//"):
                line = re.sub(r"`[^`]*`", lambda m: TOKEN.sub(lambda t: new.get(t.group(0), t.group(0)), m.group(0)), line)
                line = re.sub(r"\b[a-z]\w*[A-Z]\w*", lambda m: new.get(m.group(0), m.group(0)), line)
            elif clause:
                depth += line.count("{") - line.count("}")
                line = turned(line, table, new)
            out.append(line)
        write(path, text, "\n".join(out))


def respell_pages(new):
    for path in sorted(glob.glob("docs/*.md")) + ["README.md", "second/README.md"]:
        text = open(path).read()

        def span(m):
            return TOKEN.sub(lambda t: new.get(t.group(0), t.group(0)), m.group(0))

        write(path, text, re.sub(r"`[^`\n]*`", span, text))


NAMES, FIELDS = gather()
NEW = spelling(NAMES)
if "--list" in sys.argv:
    for old, name in sorted(NEW.items()):
        print(old, name)
else:
    respell_antt(NEW)
    respell_rt(NEW)
    respell_pages(NEW)
