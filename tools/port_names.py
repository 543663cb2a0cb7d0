#!/usr/bin/env python3
"""Brings the repository's own definitions and lemmas to snake case, as the port to today's Rattle asked (docs/PORT.md).

usage: tools/port_names.py     at the top of the repository, once, behind the kit's port script

A name that a file of specs/ or proofs/ declares, and that has a capital behind its first letter or a dash, gets underscores. Types, modules,
facts spelled as types and constructors with a capital keep their names; so do names of the library and names that Rattle makes. In src/ only
clauses, `ghost use` items and comments are touched.
"""
import os
import re

TOKEN = re.compile(r"(?<![\w'′.«-])«?[a-zμλ][\w']*(?:-[\w']+)*'*»?(?![\w'-])|(?<=\.)[a-z][\w']*(?:-[\w']+)*'*")

# A lemma beside the definition that it speaks of, in one file, gets _lem; a field beside it _is.
LEMMAS = """cell-item counted-text data-size datum-against datum-fits end-at end-room end-within free-ends is-waiting item-cell last-text
line-text made-text meet-datum meet-heads meet-split no-free-record number-line partner-of pick-history places-test queue-bytes record-bytes
record-room registers-within reply-number run-text slot-room slots-room split-against stands-decoded stands-named step-text value-bytes
values-room waits-test where-sound all-zero stack-full with-slots""".split()
FIELDS = "end-count record-count no-cause split-ends code-length".split()
OTHER = {n: n.replace("-", "_") + "_lem" for n in LEMMAS} | {n: n.replace("-", "_") + "_is" for n in FIELDS}
OTHER |= {"ask-record": "record_asked", "ask-end": "end_asked"}

# A step of a proof that Rattle names after a function of src/: behind a dot it keeps that function's spelling, but in the file whose field it is.
STEPS = {"all-zero", "free-ends", "code-length", "run-text"}
FIELD_FILE = "canonical/proofs/Memory.antt"

# Names that the kit's script had brought to snake case already, and that would fall together with another in the same file.
ALREADY = {
    "runner/proofs/Verdicts.antt": {"all_set": "all_set_lem"},
    "keeping/proofs/Memories.antt": {"same_bytes": "same_bytes_lem"},
    "canonical/proofs/EndBytes.antt": {"last_fits": "last_fits_lem"},
    "ends/proofs/Anew.antt": {"moved_up": "moved_up_lem"},
    "dump/proofs/HeldSlots.antt": {"so_far": "until_here"},
}

# Names that an import gives with `as`, and local ones that no signature declares.
ALIASES = set("""accessOf addOf closeOf cstOf datumItem decodedByRules emptyOf fewerOf forkOf getOf haltOf hcaseOf hputOf inList leqOf
lengthsOfRules mulOf overOf plugOf sameOf splitOf throughRecords throughEnds throughCode""".split())

MADE_BY_RATTLE = {"Statement", "Tie", "Goals", "Given", "TheVariants", "TheConstants"}
WORDS = {"pub", "abbrev", "unfoldable", "data", "record", "use", "where"}


def snake(name):
    if name in OTHER:
        return OTHER[name]
    return re.sub(r"(?<=[a-z0-9])([A-Z])", lambda m: "_" + m.group(1).lower(), name).replace("-", "_")


def is_odd(name):
    return re.match(r"[a-z]", name) and ("-" in name or re.search(r"[a-z0-9][A-Z]", name))


def files():
    for folder, inner, names in os.walk("crates"):
        inner[:] = sorted(d for d in inner if d != "out")
        for name in sorted(names):
            if name.endswith((".antt", ".rt")):
                yield os.path.join(folder, name)


def declared(text):
    """Names of signatures, constructors and fields."""
    found = set()
    for line in re.sub(r"--[^\n]*", "", text).split("\n"):
        m = re.match(r"\s*(?:abbrev |unfoldable )?(?:pub )?((?:[^\s(){}:;=,]+ )+): ", line + " ")
        if m:
            found |= set(m.group(1).split()) - WORDS
    return found


def bound(text):
    """Names of a let and of binders."""
    found = set(re.findall(r"\blet ([a-z][\w'-]*)", text))
    for names in re.findall(r"[({]((?:[a-z][\w'-]* )+): ", text):
        found |= set(names.split())
    return found


def foreign(text, crates):
    """Names that a file takes from the library or from a module that Rattle makes."""
    found = set()
    for path, names in re.findall(r"use ([\w.'«»/-]+)\.\{([^}]*)\}", text):
        parts = path.split(".")
        ours = parts[0] == "Rattle" and len(parts) > 2 and parts[1] in crates and parts[-1] not in MADE_BY_RATTLE and "declared" not in parts
        if not ours:
            for one in names.split(","):
                words = one.strip().split(" as ")
                found |= {words[0].strip(), words[-1].strip()}
    return found


def turned(text, file, names, taken):
    """The text of a file with its names turned."""

    def turn(m):
        word = m.group(0)
        if word not in names or (word in taken and word not in ALIASES):
            return word
        behind_dot = m.start() > 0 and m.string[m.start() - 1] == "."
        return word.replace("-", "_") if word in STEPS and behind_dot and file != FIELD_FILE else snake(word)

    for old, new in ALREADY.get(file, {}).items():
        text = re.sub(r"(?<![\w'.-])" + old + r"(?![\w'-])", new, text)
    if file.endswith(".rt"):
        return turned_source(text, turn)
    # the kit's script had taken the dash of this constructor for that behind a type's name
    return TOKEN.sub(turn, text).replace("End-step", "end_step")


def turned_source(text, turn):
    """The same for a file of src/: in clauses, ghost items and the names that comments cite."""
    lines, depth, in_clause = [], 0, False
    for line in text.split("\n"):
        s = line.strip()
        if not in_clause and re.match(r"(ghost|requires|ensures)\b", s):
            in_clause, depth = True, 0
        if in_clause:
            line = TOKEN.sub(turn, line)
            depth += s.count("{") - s.count("}")
            in_clause = not (depth <= 0 and ("}" in s or s.endswith(";")))
        elif s.startswith("//"):
            line = re.sub(r"`[^`]*`", lambda m: TOKEN.sub(turn, m.group(0)), line)
            line = TOKEN.sub(lambda m: m.group(0) if "-" in m.group(0) else turn(m), line)
        lines.append(line)
    return "\n".join(lines)


def main():
    crates = set(os.listdir("crates"))
    texts = {}
    for path in files():
        with open(path, encoding="utf-8") as f:
            texts[path] = f.read()
    names = set(ALIASES)
    for path, text in texts.items():
        if path.endswith(".antt") and not path.endswith("/Proof.antt"):
            names |= {n for n in declared(text) | bound(text) if is_odd(n)}
    for path, text in texts.items():
        new = turned(text, os.path.relpath(path, "crates"), names, foreign(text, crates))
        if new != text:
            with open(path, "w", encoding="utf-8") as f:
                f.write(new)


if __name__ == "__main__":
    main()
