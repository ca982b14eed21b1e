#!/usr/bin/env python3
"""Spells the repository's own names in antt with underscores, and its facts in camel case.

usage: python3 tools/snake_names.py [--list]      at the top of the repository, once

A name is the repository's own where a text of specs/ or proofs/ declares it: as a definition, a lemma, a field, a
constructor, a parameter, a local name, or another name for an import. Left alone are comments, names of libraries,
and in Answers and Invariants the names that Rattle makes: what stands behind `goal.`, what comes from Goals or
Given, and the step behind a variable of theirs. It stops where two names of one file would fall together.
With --list it only prints the names and what they become.
"""

import os
import re
import sys

# What underscores alone would spell wrongly, or like another name.
GIVEN = {
    "Closes-off": "ClosesOff",
    "Before-place": "BeforePlace",
    "No-member": "NoMember",
    "Found-label": "FoundLabel",
    "No-bound": "NoBound",
    "weight-of": "node_weight",
    "All-readings": "AllReadings",
}
# Local names that no text declares by a type.
LOCAL = {"many-some", "next-front", "no-b", "no-low", "no-n", "not-here", "open-entries"}
NAME = r"[^\s(){}.;,@\"«»\[\]|]+"
TOKEN = re.compile(NAME)
MADE = re.compile(r"/proofs/(.*/)?(Answers|Invariants)\.antt$")
LIBRARY = re.compile(r"use (?:Rattle\.(?:std|core)|native|lib|mathlib|Prim|denote)\b[^;{]*(\{[^}]*\})?")
OF_GOALS = re.compile(r"use Rattle\.[^\s;{]*\.(?:Goals|Given)\.\{([^}]*)\}")
HEADS = {"c", "w", "l", "g", "v", "goal", "x", "h", "t", "u"}


def texts():
    for folder, dirs, files in os.walk("crates"):
        dirs[:] = sorted(d for d in dirs if d != "out")
        for f in sorted(files):
            if f.endswith((".antt", ".rt")):
                yield os.path.join(folder, f)


def spelled(name):
    return GIVEN.get(name, name.replace("-", "_"))


def code(line, mark):
    at = line.find(mark)
    return (line, "") if at < 0 else (line[:at], line[at:])


def declared(path, text):
    """The dashed names that a text declares."""
    found = set()
    for line in text.split("\n"):
        line = code(line, "//" if path.endswith(".rt") else "--")[0]
        if path.endswith(".rt"):
            found |= set(re.findall(rf" as ({NAME})", line)) if line.startswith("ghost use") else set()
            continue
        m = re.match(rf"\s*(?:(?:pub|abbrev|unfoldable|record|data)\s+)*({NAME})(?: \{{[^{{}}]*\}})*(?:\s+\(.*)? :", line)
        if m and not re.search(r" : goal\.", line):
            found.add(m.group(1))
        found |= set(re.findall(rf"\b(?:record|data|let) ({NAME})", line))
        found |= set(re.findall(rf" as ({NAME})", line))
        for names in re.findall(r"λ ([^.λ]*)\.", line) + re.findall(r"[({]([^(){}:]*) : ", line):
            found |= set(TOKEN.findall(names))
    return {n for n in found if "-" in n.strip("-◌") and not n.startswith(("◌", "-"))}


def library_names(text):
    names = set()
    for m in LIBRARY.finditer(text):
        names |= {n.split(" as ")[0].strip() for n in (m.group(1) or "{}")[1:-1].split(",")}
    return names


def made_names(text):
    names = set(re.findall(rf"\bgoal\.({NAME})", text))
    for m in OF_GOALS.finditer(text):
        names |= {n.strip() for n in m.group(1).split(",")}
    return names


def turned(path, text, own):
    made = bool(MADE.search(path))
    stay = library_names(text) | (made_names(text) if made else set())
    out = []
    for line in text.split("\n"):
        body, note = code(line, "//" if path.endswith(".rt") else "--")
        library = bool(LIBRARY.match(body.strip())) or bool(LIBRARY.match(body.replace("ghost ", "").strip()))

        def turn(m):
            name = m.group(0)
            if name not in own or (name in stay and not re.search(rf"as {re.escape(name)}$", body[: m.end()])):
                return name
            if library and not body[: m.start()].endswith(" as "):
                return name
            if made and body[: m.start()].endswith("."):
                head = re.search(rf"({NAME})\.$", body[: m.start()])
                before = body[: head.start()] if head else ""
                if head and head.group(1) in HEADS and not before.endswith("."):
                    return name
            return spelled(name)

        out.append(TOKEN.sub(turn, body) + note)
    return "\n".join(out)


def main():
    files = {p: open(p, encoding="utf-8").read() for p in texts()}
    own = set(LOCAL)
    for p, t in files.items():
        if not MADE.search(p):
            own |= declared(p, t)
    if sys.argv[1:] == ["--list"]:
        print("\n".join(f"{n} {spelled(n)}" for n in sorted(own)))
        return
    met = []
    for p, t in files.items():
        words = set(TOKEN.findall("\n".join(code(x, "//" if p.endswith(".rt") else "--")[0] for x in t.split("\n"))))
        met += [f"{p}: {n} and {spelled(n)}" for n in sorted(own & words) if spelled(n) in words]
    if met:
        print("\n".join(met))
        raise SystemExit("these would fall together: name them in GIVEN")
    for p, t in files.items():
        new = turned(p, t, own)
        if new != t:
            with open(p, "w", encoding="utf-8") as f:
                f.write(new)


if __name__ == "__main__":
    main()
