#!/usr/bin/env python3
"""Spells this repository's own definitions and lemmas as today's library does: words in snake case, with underscores.

usage: python3 tools/port_names.py                  at the top of a checkout: turns the names of tools/port_names.tsv
       python3 tools/port_names.py --table FOLDER..  makes that table anew, of the names in several checkouts

It was run once, right after the kit's port.py, when the repository came to a newer Rattle (docs/PORT.md). A name is turned if it is
declared in specs/ or in a lemma file of proofs/ (a definition, a lemma, a field, a constructor, a module's other name) and has a capital
behind its first letter, or a dash: `countBelow` becomes `count_below`, `filled-start` becomes `filled_start`. Types and modules keep
their capitals. What the library, the compiler or the code of src/ names keeps its spelling. It goes by whole words, in .antt and .rt
files (there only in clauses, `ghost use` items and comments), in must-fail edits and in the code spans of docs/.
"""

import collections
import os
import re
import sys

WORD = re.compile(r"[^\s(){}\[\].;,@\"«»`:]+")
DECLARED = re.compile(r"^((?:(?:pub|abbrev|unfoldable|opaque|private|syntax)\s+)*)([^\s(){}.;,:]+)\s*:(?=\s|$)")
MEMBER = re.compile(r"^\s+(?:(?:pub|abbrev|unfoldable|opaque)\s+)*((?:[^\s(){}.;,:]+\s+)*[^\s(){}.;,:]+)\s*:(?=\s|$)")
USED = re.compile(r"^\s*(?:pub\s+)?(?:ghost\s+)?use\s+([^\s{;]+?)(?:\.\{([^}]*)\})?(?:\s+as\s+(\S+?))?;?\s*$")


# Names of today's library that port.py gave to lemmas here, beside a definition of the same name: crates, old, new.
BESIDE = [
    ("digits", "digit_at", "digit_at_lem"),
    ("compare", "cell_apart", "cell_apart_lem"),
    ("compare", "cell_row", "cell_row_lem"),
    ("compare theorem", "compare_exact", "compare_exact_lem"),
    ("contention", "read_answer", "read_answer_lem"),
]


def texts(root, *ends):
    for folder, dirs, files in os.walk(root):
        dirs[:] = sorted(d for d in dirs if d not in ("out", ".git", "target", "__pycache__"))
        for name in sorted(files):
            if name.endswith(ends):
                yield os.path.join(folder, name)


def read(path):
    with open(path, encoding="utf-8") as f:
        return f.read()


def snake(name):
    """The name in snake case, or the name itself."""
    head = re.match(r"_*", name)[0]
    body = name[len(head):]
    if not body or not body[0].islower():
        return name
    # A fact's name keeps its capital inside a lemma's name only behind an underscore, and none is spelled so here.
    body = re.sub(r"(?<=[a-z0-9'])([A-Z]+)(?=[a-z0-9]|$|-)", lambda m: "_" + m[1].lower(), body)
    return head + body.replace("-", "_")


def is_lemma_file(path):
    parts = path.split(os.sep)
    at = parts.index("crates")
    return parts[at + 2] == "specs" or (parts[at + 2] == "proofs" and len(parts) == at + 4)


def table(roots):
    """The names to turn, with their new spelling, and what speaks against some."""
    own, kit = collections.OrderedDict(), set()
    spelled, stand = set(), set()
    for root in roots:
        crates = os.path.join(root, "crates")
        for path in texts(crates, ".antt", ".rt"):
            text = read(path)
            for line in text.splitlines():
                kit.update(names_of_kit(line, crates))
            spelled.update(WORD.findall(text))
            if path.endswith(".antt") and is_lemma_file(os.path.relpath(path, root)):
                for line in text.splitlines():
                    m = DECLARED.match(line) or MEMBER.match(line)
                    for name in m[m.lastindex].split() if m else ():
                        if snake(name) != name:
                            own[name] = snake(name)
                        else:
                            stand.add(name)
    notes = []
    for name in list(own):
        if name in kit:
            notes.append(f"kept, as the library or the code has it: {name}")
            del own[name]
    # A lemma that would have the name of its definition gets `_lem`.
    plain = {new for name, new in own.items() if "-" not in name}
    for name, new in own.items():
        if "-" in name and (new in plain or new in stand):
            own[name] = new + "_lem"
            notes.append(f"a lemma beside its definition: {name} becomes {new}_lem")
    back = collections.defaultdict(set)
    for name, new in own.items():
        back[new].add(name)
    for new, olds in back.items():
        if len(olds) > 1 or new in stand:
            notes.append(f"falls together: {new} of {', '.join(sorted(olds))}{' and a declared name' if new in stand else ''}")
        elif new in spelled:
            notes.append(f"look: {new} of {', '.join(sorted(olds))} is a word of the code")
    return own, notes


def names_of_kit(line, crates):
    """What a use line brings in that this repository's specs/ and lemma files do not declare."""
    used = USED.match(line)
    if not used:
        return set()
    head = used[1].split(".")
    ours = head[0] == "Rattle" and len(head) > 1 and os.path.isdir(os.path.join(crates, head[1]))
    if ours and not (len(head) > 3 and head[3] in ("declared", "contracts")) and not (len(head) > 4 and head[2] == "proofs"):
        return set()
    return {n.strip().split(" as ")[0] for n in (used[2] or "").split(",") if n.strip()}


# Names that are words of English in a comment.
PROSE = {"flip_flops": "flip-flops", "carry_in_lem": "carry-in"}
MARKS = {".rt": "//", ".antt": "--", ".edit": "#"}


def turned(text, names):
    return WORD.sub(lambda m: names.get(m[0], m[0]), text)


def with_prose(path, text):
    """The text with the words of its comments as English has them."""
    mark = MARKS[os.path.splitext(path)[1]]
    lines = text.split("\n")
    for k, line in enumerate(lines):
        at = line.find(mark)
        if at >= 0 and (mark != "#" or at == 0):
            said = line[at:]
            for name, word in PROSE.items():
                said = said.replace(name, word)
            lines[k] = line[:at] + said
    return "\n".join(lines)


RUST = re.compile(r"//[^\n]*|\"(?:\\.|[^\"\\\n])*\"|b?'(?:\\.|[^'\\\n])'|ghost use [^;]*;|(?<!\w)(?:requires|ensures|ghost)\b[^{};]*\{")


def turned_rust(text, names):
    """The clauses, `ghost use` items and comments of a source file."""
    out, at = [], 0
    while True:
        m = RUST.search(text, at)
        if not m:
            return "".join(out) + text[at:]
        out.append(text[at:m.start()])
        end = m.end()
        if m[0].endswith("{") and not m[0].startswith(("//", "ghost use", '"')):
            depth = 1
            while depth:
                depth += {"{": 1, "}": -1}.get(text[end], 0)
                end += 1
        piece = text[m.start():end]
        out.append(piece if piece[0] in "\"'b" else turned(piece, names))
        at = end


def main(words):
    beside = os.path.join(os.path.dirname(os.path.abspath(__file__)), "port_names.tsv")
    if words[:1] == ["--table"]:
        names, notes = table(words[1:])
        with open(beside, "w", encoding="utf-8") as f:
            f.writelines(f"{old}\t{new}\n" for old, new in names.items())
        print("\n".join(notes))
        return 0
    names = dict(line.split("\t") for line in read(beside).splitlines())
    for path in texts("crates", ".antt", ".rt", ".edit"):
        text = read(path)
        more = {old: new for crates, old, new in BESIDE if path.split(os.sep)[1] in crates.split()} if path.endswith(".antt") else {}
        new = with_prose(path, turned_rust(text, names) if path.endswith(".rt") else turned(text, names | more))
        if new != text:
            with open(path, "w", encoding="utf-8") as f:
                f.write(new)
    for path in texts("docs", ".md"):
        text = read(path)
        new = re.sub(r"`[^`\n]+`", lambda m: turned(m[0], names), text)
        if new != text:
            with open(path, "w", encoding="utf-8") as f:
                f.write(new)
    return 0


if __name__ == "__main__":
    sys.exit(main(sys.argv[1:]))
