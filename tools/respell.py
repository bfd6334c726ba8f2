#!/usr/bin/env python3
"""Spells the repository's own definitions and lemmas as the language's style has it: words in snake case, a dash between two names alone.

usage: python3 tools/respell.py [--check] [--table]

    blockOf -> block_of, every-step -> every_step, length-twoBytes -> length-two_bytes

It was run once, right after the kit's port.py. What turns: the names that specs/ and proofs/ declare, wherever a whole word
of an .antt file, of a clause or ghost item of an .rt file, of a must-fail edit or of a page is one. What stays: names of src/,
types and modules, names that the kit makes for proofs, and the schemas of the source (createFS, readCHAN, ..), which are
spelled as the source spells them. --table prints the names; --check writes nothing. Names that would fall together are printed, and then nothing is written.
"""

import os
import re
import sys

WORD = re.compile(r'[^\s(){}.;,@"«»`|\[\]/:!?]+')
QUIET = re.compile(r'"(?:[^"\\\n]|\\.)*"')
COMMENT = re.compile(r'(?<![^\s(){}.;,@"«»])--[^\n]*')
DECLARED = re.compile(r"^[ \t]*((?:(?:abbrev|unfoldable|opaque|pub)[ \t]+)*)([^\s(){}.;,@\"«»]+)((?:[ \t]+\{[^{}]*\})?)[ \t]+:(?=\s)(.*)$", re.M)
HEADED = re.compile(r"^[ \t]*(?:pub[ \t]+)?(?:record|data)[ \t]+([^\s(){}.;,]+)", re.M)
SOURCE = re.compile(r"(?:\w*?)(?:SS|FS0?|NS0?|CS|AS|FILE|CHAN)$")  # createFS, readCHAN: the source's schemas
PLAIN = "dirformat dirstored direncode usedfids seekoffset fstat newposn dnames nstore fstore cstore".split()

# Names of the library that the lemmas join by a dash.
LIBRARY = set(
    """length append sets set get_or take drop map reverse add mul sub div rem le lt eq ne ltb leb eqb suc cond list nat true false nil cons pick""".split()
)
# A type or relation whose name began small.
TYPES = {"source": {"freeing": "Freeing", "replacing": "Replacing", "closing": "Closing", "unlinking": "Unlinking", "linking": "Linking", "moving": "Moving"}, "serving": {"brief": "Brief"}}
# Facts that had a definition's name already, in the spelling of src/: in the crates' lemmas they give way to the definition.
FACTS = {"two_bytes": "two_bytes_lem", "a_word": "a_word_lem", "word_end": "word_end_lem"}
FACTS_OF_SPECS = {"in_use": "is_in_use", "name_new": "name_new_lem", "one_deeper": "one_deeper_lem"}
AT = {"crates/folders/proofs/decide_rmdir": FACTS_OF_SPECS, "crates/likeness/specs/Congruence": {"free-file": "is_free_file", "free-channel": "is_free_channel"}}


def extra(path, root):
    """The rows that hold in a file alone."""
    at = os.path.relpath(path, root)
    more = dict(FACTS)
    if at.endswith(".antt") and at.split(os.sep)[2] == "specs":
        more.update(FACTS_OF_SPECS)
    for place, rows in AT.items():
        if at.startswith(place):
            more.update(rows)
    return more


def read(path):
    with open(path, encoding="utf-8") as f:
        return f.read()


def files(root):
    for top in ("crates", "docs"):
        for folder, dirs, names in os.walk(os.path.join(root, top)):
            dirs[:] = sorted(d for d in dirs if d != "out")
            for f in sorted(names):
                if f.endswith((".antt", ".rt", ".edit", ".md")):
                    yield os.path.join(folder, f)
    yield os.path.join(root, "README.md")


def blank(text):
    return COMMENT.sub("", QUIET.sub("", text))


def declared(root):
    """The names that antt files declare, and those of them that are definitions, fields or constructors."""
    names, words = set(), set()
    for path in files(root):
        if not path.endswith(".antt"):
            continue
        text = blank(read(path))
        for m in DECLARED.finditer(text):
            how, name, _, kind = m.groups()
            if re.match(r"\s*(?:tie|goal|need)\.", kind) or name.endswith("-spec"):
                continue
            names.add(name)
            if "abbrev" in how or "unfoldable" in how or "-" not in name and re.search(r"[a-z][A-Z]", name):
                words.add(name)
            elif "-" not in name and kind.strip() in ("ℕ", "Bool", "List ℕ", "Store", "Tables"):
                words.add(name)
        words.update(HEADED.findall(text))
    for path in files(root):
        if path.endswith(".rt"):
            words.update(re.findall(r"\bfn (\w+)", read(path)))
    return names, words - {"free-file", "free-channel"}


def is_source(part):
    return part in PLAIN or bool(SOURCE.fullmatch(part)) and not part.islower()


def snake(part):
    if part == "getD":
        return "get_or"
    if not re.match(r"[a-zμ]", part) or is_source(part):
        return part
    return re.sub(r"(?<=[a-z0-9])[A-Z]", lambda m: "_" + m[0].lower(), part)


def table(root):
    names, words = declared(root)
    known = {snake(w) for w in words} | words | LIBRARY
    known |= {w.replace("-", "_") for w in known}

    def is_name(part):
        return part in known or part.rstrip("0123456789'") in known or part[:1].isupper() or is_source(part) or not re.search(r"[A-Za-z]", part)

    rows = {}
    for name in sorted(names):
        if not re.search(r"[A-Za-z]", name) or name[0].isupper() and "-" not in name:
            continue
        parts = [snake(p) for p in name.split("-")]
        new = parts[0]
        for before, part in zip(parts, parts[1:]):
            new += ("-" if is_name(before) and is_name(part) else "_") + part
        rows[name] = new
    # A lemma that would have its definition's name gets _lem.
    for name, new in list(rows.items()):
        if name not in words and any(rows.get(w, w) == new for w in words if w in names and w != name):
            rows[name] = new + "_lem"
    return {a: b for a, b in rows.items() if a != b}, names


def ghost_spans(text):
    """The clauses and ghost items of an .rt file."""
    for m in re.finditer(r"//[^\n]*|ghost\s+use\b[^;]*;|\b(?:requires|ensures|ghost)\b\s*\*?\s*\w*\s*:?\s*\{", text):
        if m[0].startswith("//") or m[0].startswith("ghost") and m[0].endswith(";"):
            yield m.start(), m.end()
            continue
        depth, k = 1, m.end()
        while k < len(text) and depth:
            depth += (text[k] == "{") - (text[k] == "}")
            k += 1
        yield m.end(), k


def turned(text, rows):
    return WORD.sub(lambda m: rows.get(m[0], m[0]), text)


def prose(text, rows):
    """A page or a comment: a word ends at the signs of prose too. A plain word in dashes is no name there unless it is in a code span."""
    camel = {a: b for a, b in rows.items() if re.search(r"[a-z0-9][A-Z]", a)}
    text = re.sub(r"[A-Za-z][A-Za-z0-9'-]*", lambda m: camel.get(m[0], m[0]), text)
    return re.sub(r"`[^`\n]*`", lambda m: turned(m[0], rows), text)


def main(argv):
    root = os.path.dirname(os.path.dirname(os.path.abspath(__file__)))
    rows, names = table(root)
    if "--table" in argv:
        for a, b in rows.items():
            print(a, b, sep="\t")
        return 0
    bad = 0
    back = {}
    for a, b in rows.items():
        if b in back or b in names and b not in rows and b not in FACTS and b not in FACTS_OF_SPECS:
            print(f"falls together: {a} and {back.get(b, b)}: {b}")
            bad += 1
        back[b] = a
    out = {}
    for path in files(root):
        text = read(path)
        mine = rows | extra(path, root)
        if path.endswith(".antt"):
            code = blank(text)
            have = set(WORD.findall(code))
            for a, b in mine.items():
                if a in have and b in have and b not in mine:
                    print(f"look: {os.path.relpath(path, root)} has {a} and {b}")
            crate = os.path.relpath(path, os.path.join(root, "crates")).split(os.sep)[0]

            def code_turned(piece):
                piece = turned(piece, mine)
                for a, b in TYPES.get(crate, {}).items():
                    piece = re.sub(r"(?<![\w.'-])" + a + r"(?![\w.'-])", lambda m: b, piece)
                return piece

            pieces, at = [], 0
            for m in re.finditer(QUIET.pattern + "|" + COMMENT.pattern, text):
                pieces.append(code_turned(text[at : m.start()]))
                pieces.append(prose(m[0], mine) if m[0].startswith("--") else m[0])
                at = m.end()
            new = "".join(pieces) + code_turned(text[at:])
        elif path.endswith(".rt"):
            pieces, at = [], 0
            for a, b in ghost_spans(text):
                piece = text[a:b]
                pieces += [text[at:a], prose(piece, mine) if piece.startswith("//") else turned(piece, mine)]
                at = b
            new = "".join(pieces) + text[at:]
            for m in re.finditer(r"\bfn \w+\s*(?:<[^>]*>)?\(([^)]*)\)[^{]*", text):
                params = set(re.findall(r"(\w+)\s*:", m[1]))
                k = text.find("\n{", m.end())
                clause = turned(text[m.end() : k], mine)
                for a, b in rows.items():
                    if b in params and re.search(r"(?<![\w.-])" + re.escape(a) + r"(?![\w-]| =)", text[m.end() : k]):
                        print(f"look: {os.path.relpath(path, root)}: {m[0][:30]}: parameter {b}")
        elif path.endswith(".edit"):
            new = "".join(turned(l, mine) if l.startswith(("old:", "new:")) else l for l in text.splitlines(keepends=True))
        else:
            new = prose(text, mine)
        if new != text:
            out[path] = new
    print(f"{len(rows)} names, {len(out)} files")
    if bad or "--check" in argv:
        return 1 if bad else 0
    for path, new in out.items():
        with open(path, "w", encoding="utf-8") as f:
            f.write(new)
    return 0


if __name__ == "__main__":
    sys.exit(main(sys.argv[1:]))
