#!/usr/bin/env python3
"""Spells the repository's own definitions, lemmas, fields and bound names in snake case, after the port to a newer Rattle.

usage: python3 tools/respell.py      at the top of the repository, once, after port.py

A name that a file imports from the kit's libraries stays as it is there, and so does what Rattle makes (a name behind a
dot that no record or module of the repository has). Names of Rust code do not change: only clauses and `ghost use` items do.
In comments and pages a name is respelled where it stands in backquotes. It prints each name and what it became, and
refuses to write anything where two names of one file would fall together.
"""
import os
import re
import sys

WORD = re.compile(r"[^\s(){}\[\],;.@\"«»:`]+")
USE = re.compile(r"^[ \t]*(?:pub )?(?:ghost )?use ([^\s;{}]+?)(?:\.\{([^}]*)\})?(?: as ([^\s;]+))?;?[ \t]*$", re.M)
KEPT = {"getD": "get_or"}
# Lemmas that would fall together with the definition that they are about, or with one of the kit's.
SPECIAL = {
    "bit-and": "bit_of_and",
    "bit-or": "bit_of_or",
    "bit-xor": "bit_of_xor",
    "same-masks": "same_masks_lem",
    "no-masks": "no_masks_lem",
    "call-play": "call_play_lem",
    "call-undo": "call_undo_lem",
    "source-at": "source_at_lem",
    "painted-by": "painted_by_lem",
    "header-in": "header_read",
}


def is_old(word):
    return bool(re.search(r"[a-z0-9₀-₉]-[A-Za-z0-9]", word) or re.match(r"[a-z][A-Za-z0-9₀-₉]*[a-z0-9₀-₉][A-Z]", word) or "′" in word)


def snake(word):
    if word in SPECIAL:
        return SPECIAL[word]
    for old, new in KEPT.items():
        word = word.replace(old, new)
    word = re.sub(r"(?<=[a-z0-9₀-₉])([A-Z])(?=[a-z0-9])", lambda m: "_" + m[1].lower(), word)
    return word.replace("-", "_").replace("′", "'")


def files(top, ending):
    for folder, below, names in os.walk(top):
        below[:] = sorted(it for it in below if it not in ("out", "target", ".git"))
        for name in sorted(names):
            if name.endswith(ending):
                yield os.path.join(folder, name)


def read(path):
    with open(path, encoding="utf-8", newline="") as f:
        return f.read()


def crates():
    return {it for it in os.listdir("crates") if os.path.isdir(os.path.join("crates", it, "src"))}


# Fields of Rust structs: they stand in records, behind a dot or before '=', and meet no name of a term.
STRUCT_FIELDS = {"bits_len", "bmi_len", "extent_src", "top_down"}
OWN = crates() if os.path.isdir("crates") else set()


def is_own(path):
    steps = path.split(".")
    return steps[0] == "Rattle" and len(steps) > 1 and steps[1] in OWN


def imports(text):
    """The names that a file imports from the repository, and from elsewhere."""
    own, other = set(), set()
    for path, names, alias in USE.findall(text):
        for name in (it.strip() for it in names.split(",") if it.strip()):
            first, _, second = name.partition(" as ")
            (own if is_own(path) else other).add(first)
            if second:
                own.add(second)
    return own, other


def code_of(text, mark):
    return "\n".join(it.split(mark + " ")[0] if mark in it else it for it in text.split("\n"))


def behind_dot(text, at):
    return at > 0 and text[at - 1] == "."


def declared(path, text):
    """The old names that an antt file declares or binds: every old word of its code that stands behind no dot and is not imported."""
    code = code_of(text, "--")
    own, other = imports(code)
    body = USE.sub("", code)
    return {m[0] for m in WORD.finditer(body) if is_old(m[0]) and not behind_dot(body, m.start())} - other


def fields():
    """What stands behind a dot: the fields and public names of the repository's definitions and lemmas."""
    found = set()
    for path in files("crates", ".antt"):
        if "/proofs/" in path and path.endswith("/Proof.antt"):
            continue
        for m in re.finditer(r"^\s+(?:pub )?([^\s(){}:]+)(?: \([^\n]*\))? :", code_of(read(path), "--"), re.M):
            found.add(m[1])
        for m in re.finditer(r"^\s*(?:(?:abbrev|unfoldable) )?pub ([^\s(){}:]+) ", read(path), re.M):
            found.add(m[1])
    return {it for it in found if is_old(it)}


def whole_path(text, start):
    """The dotted path that ends at start."""
    k = start
    while k > 0 and (text[k - 1] == "." or WORD.fullmatch(text[k - 1])):
        k -= 1
    return text[k:start]


def turn_antt(path, text, names, members, said):
    code = code_of(text, "--")
    own, other = imports(code)
    out = []
    for line in text.split("\n"):
        body, mark, comment = line.partition("--") if re.search(r"(^|\s)--", line) else (line, "", "")
        use = USE.match(body)
        if use:
            if is_own(use[1]):
                body = WORD.sub(lambda m: snake(m[0]) if is_old(m[0]) and m[0] in names else m[0], body)
            else:
                # a new name behind 'as'
                body = re.sub(r"( as )([^\s,}]+)", lambda m: m[1] + (snake(m[2]) if is_old(m[2]) else m[2]), body)
        else:
            def one(m):
                word = m[0]
                if not is_old(word):
                    return word
                if behind_dot(body, m.start()):
                    head = whole_path(body, m.start())
                    return snake(word) if is_own(head) or word in members and not head.startswith(("tie.", "c.", "borrow.", "lib.", "mathlib.", "native.")) else word
                return snake(word) if word in names and (word in own or word not in other) else word
            body = WORD.sub(one, body)
        comment = in_quotes(comment, names)
        out.append(body + mark + comment)
    return "\n".join(out)


def in_quotes(text, names):
    def quoted(m):
        return "`" + WORD.sub(lambda w: snake(w[0]) if is_old(w[0]) and w[0] in names else w[0], m[1]) + "`"
    return re.sub(r"`([^`\n]*)`", quoted, text)


def turn_rt(path, text, names, members):
    own, other = imports(text)
    out = []
    for line in text.split("\n"):
        if line.lstrip().startswith("//"):
            out.append(in_quotes(line, names))
            continue
        use = USE.match(line)
        if use and is_own(use[1]):
            line = WORD.sub(lambda m: snake(m[0]) if is_old(m[0]) and m[0] in names else m[0], line)
        elif not use and re.match(r"\s*(requires|ensures|ghost|invariant|decreases)\b", line) or is_clause(out):
            line = WORD.sub(lambda m: snake(m[0]) if is_old(m[0]) and (m[0] in own or behind_dot(line, m.start()) and m[0] in members) else m[0], line)
        out.append(line)
    return "\n".join(out)


def is_clause(lines):
    """Is the clause that the last lines began still open?"""
    open_ = 0
    for line in reversed(lines[-12:]):
        if line.lstrip().startswith("//"):
            break
        open_ += line.count("{") - line.count("}")
        if re.match(r"\s*(requires|ensures|ghost)\b", line):
            return open_ > 0
    return False


def words_of(path, text):
    code = code_of(text, "--" if path.endswith(".antt") else "//")
    return {m[0] for m in WORD.finditer(code) if not behind_dot(code, m.start())}


def main():
    if not OWN:
        sys.exit("run it at the top of the repository")
    names = set()
    texts = {it: read(it) for it in files("crates", ".antt")}
    for path, text in texts.items():
        names |= declared(path, text)
    members = fields()
    names |= members
    rust = {it: read(it) for it in files("crates", ".rt")}
    for text in rust.values():
        own, _ = imports(text)
        names |= {it for it in own if is_old(it)}
    turned = {}
    for path, text in texts.items():
        turned[path] = turn_antt(path, text, names, members, None)
    for path, text in rust.items():
        turned[path] = turn_rt(path, text, names, members)
    bad = []
    for path, text in {**texts, **rust}.items():
        before, after = words_of(path, text), words_of(path, turned[path])
        gone = before - after
        for word in sorted(gone):
            twins = [it for it in gone if it != word and snake(it) == snake(word) and snake(it) not in STRUCT_FIELDS]
            bad += [f"{path}: {word} and {it}" for it in twins]
        for word in sorted(gone):
            if snake(word) in before and not path.endswith(".rt") and snake(word) not in STRUCT_FIELDS:
                bad.append(f"{path}: {word} and {snake(word)}")
    for line in bad:
        print("falls together: " + line)
    pages = [it for it in files("docs", ".md")] + ["README.md"]
    for path in pages:
        turned[path] = in_quotes(read(path), names)
    spelled = {}
    for word in sorted(names):
        spelled.setdefault(snake(word), []).append(word)
    for new, olds in spelled.items():
        if len(olds) > 1:
            print("look: " + ", ".join(olds) + " are all " + new + " now")
    if "--check" in sys.argv[1:]:
        return
    if bad:
        sys.exit("nothing was written")
    for path, text in turned.items():
        if text != (texts.get(path) or rust.get(path)):
            with open(path, "w", encoding="utf-8", newline="") as f:
                f.write(text)
    for new, olds in spelled.items():
        print(" ".join(olds) + " -> " + new)


if __name__ == "__main__":
    main()
