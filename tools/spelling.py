#!/usr/bin/env python3
"""Brings the repository's own definitions and lemmas to the spelling of today's Rattle: words in snake case.

usage: python3 tools/spelling.py           at the top of the repository, once, after the kit's port.py
       python3 tools/spelling.py --list    prints the names that would change, and those that fall together

Types, modules and names of src/ keep their spelling; so do names of the kit.
"""
import os
import re
import sys

WORD = re.compile(r"[^\W\d][\w'₀-₉-]*", re.UNICODE)
CAMEL = re.compile(r"^[a-z][a-z0-9']*[A-Z]|^[a-z][a-z0-9'_-]*[a-z0-9][A-Z]")
DECLARED = re.compile(r"^\s*(?:pub )?(?:abbrev |unfoldable )?(?:pub )?((?:[^\W\d][\w'-]* )+)?:(?: |$)", re.UNICODE)
KIT = re.compile(r"^\s*(?:ghost )?use ((?!Rattle\.(?:%s)\b)[^;{]*)\.\{([^}]*)\}", re.UNICODE | re.MULTILINE)
GENERATED = ("-spec", "-lem")

# Types whose name was small, and lemmas whose name a definition takes: by file.
BY_FILE = {
    "crates/execution/proofs/NotRefused.antt": {"as_read": "as_read_lem"},
    "crates/known/proofs/KnownFamilies.antt": {"fields_read": "fields_read_lem"},
    "crates/line/proofs/Counts.antt": {"slot_counts": "slot_counts_lem"},
    "crates/machine/proofs/Ends.antt": {"one_of": "IsOneOf"},
    "crates/machine/proofs/Fetches.antt": {"spared": "IsSpared"},
    "crates/stepping/specs/OrderedLine.antt": {"isAdmissible": "is_admissible"},
    "crates/theorems/proofs/UnalignedReads.antt": {"refused": "IsRefused"},
}

# Lemmas that would fall together with a definition or a lemma that keeps its name.
LEMMAS = ["bit-and", "bit-or", "line-at", "noted-in", "ones-in", "read-code"]


def crates(top):
    return sorted(c for c in os.listdir(os.path.join(top, "crates")) if os.path.isdir(os.path.join(top, "crates", c, "src")))


def files(top, *endings):
    for folder, dirs, names in os.walk(os.path.join(top, "crates")):
        dirs[:] = sorted(d for d in dirs if d != "out")
        for n in sorted(names):
            if n.endswith(endings):
                yield os.path.join(folder, n)


def pages(top):
    for root in [top] + [os.path.join(top, d) for d in ("docs", "docs/changes", "compare")]:
        for n in sorted(os.listdir(root)):
            if n.endswith(".md"):
                yield os.path.join(root, n)
    for p in files(top, ".md"):
        yield p


def read(path):
    with open(path, encoding="utf-8") as f:
        return f.read()


def own_proof(path):
    """A file of one function's proof."""
    parts = path.split(os.sep)
    return parts[-1] == "Proof.antt"


def snake(word):
    word = re.sub(r"([a-z0-9])([A-Z])", r"\1_\2", word)
    word = re.sub(r"([A-Z])([A-Z][a-z])", r"\1_\2", word)
    return word.lower().replace("-", "_")


def comment_split(line):
    at = line.find("--")
    while at >= 0:
        if (at == 0 or line[at - 1] in " (") and (at + 2 == len(line) or line[at + 2] in " \n"):
            return line[:at], line[at:]
        at = line.find("--", at + 2)
    return line, ""


def kit_names(top):
    own = "|".join(map(re.escape, crates(top)))
    use = re.compile(r"^\s*(?:ghost )?use ((?!Rattle\.(?:%s)\.)[^;{\n]*)\.\{([^}]*)\}" % own, re.MULTILINE)
    names = set()
    for p in files(top, ".antt", ".rt"):
        if p.endswith(".rt"):
            ghost = "\n".join(l for l in read(p).splitlines() if l.startswith("ghost use"))
            text = ghost
        else:
            text = read(p)
        for m in use.finditer(text):
            for w in m.group(2).split(","):
                names.add(w.split(" as ")[0].strip())
    return names


def code_names(top):
    """What src/ declares: functions, constants, fields, parameters."""
    names = set()
    for p in files(top, ".rt"):
        text = read(p)
        names.update(re.findall(r"\b(?:fn|const|static|mod|struct|enum|type) ([A-Za-z_]\w*)", text))
        names.update(re.findall(r"^\s*(?:pub(?:\(crate\))? )?([a-z_]\w*): ", text, re.MULTILINE))
    return names


def declared(top):
    """The words that our definitions and lemmas declare or bind, with the files; and the fields of our records."""
    words, fields = {}, set()
    for p in files(top, ".antt"):
        for line in read(p).splitlines():
            code, _ = comment_split(line)
            m = DECLARED.match(code)
            found = m.group(1).split() if m and m.group(1) else []
            if code.startswith("  pub ") and not own_proof(p):
                fields.update(found)
            for m in re.finditer(r"[({]((?:[^\W\d][\w'-]* )+):", code):
                found += m.group(1).split()
            for m in re.finditer(r"λ \(?([^.:]*)[.:]", code):
                found += WORD.findall(m.group(1))
            for m in re.finditer(r"\blet ([^\W\d][\w'-]*)", code):
                found.append(m.group(1))
            for w in found:
                words.setdefault(w, set()).add(p)
    return words, fields


def changes(top):
    kit = kit_names(top)
    code = code_names(top)
    words, fields = declared(top)
    table = {}
    for w, where in words.items():
        if w in kit or w in code or w[0].isupper():
            continue
        # the names in a function's proof that come of the older check's names go with that proof
        if "-" in w and all(own_proof(p) for p in where):
            continue
        new = snake(w)
        if new != w:
            table[w] = new
    small = {table[w] for w in table if "-" not in w}
    for w in table:
        if "-" in w and (table[w] in small or w in LEMMAS):
            table[w] += "_lem"
    return table, fields


def older(text):
    """What port.py does not turn in edits and pages: paths, fields, and the names that it turned elsewhere."""
    text = re.sub(r"Rattle·(\w+)·specs\.specs\.", r"Rattle.\1.specs.", text)
    text = re.sub(r"Rattle·(\w+)·proofs\.proofs\.", r"Rattle.\1.proofs.", text)
    text = re.sub(r"Rattle·(\w+)\.", r"Rattle.\1.", text)
    text = re.sub(r"(?<=[\w')]) \.(?=[a-z])", ".", text)
    return re.sub(r"(?<![\w.\"/-])[a-z][a-z0-9]*[A-Z][A-Za-z0-9]*(?![\w.(/-]*\()", lambda m: snake(m.group(0)), text)


def turn(text, table, kind, fields=()):
    if kind in ("antt", "proof"):
        def word(m):
            w = m.group(0)
            dotted = m.start() > 0 and m.string[m.start() - 1] == "."
            if kind == "proof" and dotted and w not in fields:
                return w
            return table.get(w, w)

        out = []
        for line in text.split("\n"):
            code, note = comment_split(line)
            code = WORD.sub(word, code)
            note = WORD.sub(lambda m: m.group(0) if "-" in m.group(0) else table.get(m.group(0), m.group(0)), note)
            out.append(code + note)
        return "\n".join(out)
    if kind == "rt":
        out = []
        for part in re.split(r'(b?"(?:[^"\\]|\\.)*")', text):
            out.append(part if part[:1] in '"' or part[:2] == 'b"' else re.sub(r"[A-Za-z_][\w']*", lambda m: table.get(m.group(0), m.group(0)), part))
        return "".join(out)
    if kind == "edit":
        out = []
        for line in text.split("\n"):
            if line.startswith(("old:", "new:")):
                line = line[:4] + older(WORD.sub(lambda m: table.get(m.group(0), m.group(0)), line[4:]))
            out.append(line)
        return "\n".join(out)
    # a page: only between backticks
    return re.sub(r"`[^`\n]*`", lambda q: older(WORD.sub(lambda m: table.get(m.group(0), m.group(0)), q.group(0))), text)


def together(top, table):
    """Pairs of words that would be one in some file."""
    found = {}
    for p in files(top, ".antt", ".rt"):
        text = read(p)
        if p.endswith(".antt"):
            text = "\n".join(comment_split(l)[0] for l in text.splitlines())
            words = set(WORD.findall(text))
        else:
            text = re.sub(r'b?"(?:[^"\\]|\\.)*"|//[^\n]*', "", text)
            words = set(re.findall(r"[A-Za-z_][\w']*", text))
        by = {}
        for w in words:
            by.setdefault(table.get(w, w), set()).add(w)
        for new, old in by.items():
            if len(old) > 1:
                found.setdefault((new, tuple(sorted(old))), []).append(os.path.relpath(p, top))
    return found


def by_file(top):
    for p, table in BY_FILE.items():
        p = os.path.join(top, p)
        out = []
        for line in read(p).split("\n"):
            code, note = comment_split(line)
            out.append(re.sub(r"(?<![\w.'-])(%s)(?![\w'-])" % "|".join(table), lambda m: table[m.group(1)], code) + note)
        with open(p, "w", encoding="utf-8") as f:
            f.write("\n".join(out))


def main():
    top = os.getcwd()
    table, fields = changes(top)
    if "--list" in sys.argv:
        for w in sorted(table):
            print(w, table[w])
        print("---- together")
        for (new, old), where in sorted(together(top, table).items()):
            print(new, old, len(where), *where[:4])
        return
    by_file(top)
    for p in list(files(top, ".antt", ".rt", ".edit")) + sorted(set(pages(top))):
        old = read(p)
        kind = "proof" if own_proof(p) else p.rsplit(".", 1)[1]
        new = turn(old, table, kind, fields)
        if new != old:
            with open(p, "w", encoding="utf-8") as f:
                f.write(new)
    print(len(table), "names")


main()
