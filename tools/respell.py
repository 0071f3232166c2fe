#!/usr/bin/env python3
"""Spells the definitions and lemmas of this repository as today's Rattle spells names. Run once, at the top, after the kit's port.py.

usage: tools/respell.py [--check]

Types and modules are left; a definition, a field or an alias of a `ghost use` gets snake case. In the name of a lemma a dash stays between
two words that are names themselves, and every other dash becomes an underscore. Where the new name already stands for something else, a
lemma gets `_lem` at its end. What Rattle itself makes keeps its name (a goal, a step, the files of a function's proof are no names of ours),
and so do functions, constants and strings of src/. --check writes nothing and prints the table.
"""
import os
import re
import sys

NAME = r"[^\s(){}.;,@\"«»]+"
WORD = re.compile(NAME)
DECLARED = re.compile(r"^\s*(?:(?:abbrev|unfoldable|pub|record|data|ruleset)\s+)*((?:" + NAME + r"\s+)*?" + NAME + r")((?:\s*[({][^:(){}]*:[^{}]*[)}])*)\s:(?:\s|$)")
KEYWORDS = {"abbrev", "unfoldable", "pub", "record", "data", "ruleset", "module", "where", "use", "let", "elim", "λ", "in", "unfolding", "axiom"}
QUIET = re.compile(r"--[^\n]*|\"(?:[^\"\\\n]|\\.)*\"")
USE = re.compile(r"^use [^\n]*", re.M)
GHOST_USE = re.compile(r"ghost\s+use\b[^;]*;")
CLAUSE = re.compile(r"\b(?:requires|ensures)\s*\*?\s*(?:\w+\s*)?\{|\bghost\s+\w+\s*:\s*\{")
ALIAS = re.compile(r"(\S+) as ([^\s,}]+)")
# Words of the library that the names of lemmas join.
LIBRARY = set("zero one suc true false not and or xor append cons nil length set take drop map min max mod div add sub mul pow shl shr cond eqb ltb leb get put replicate some none ok".split())

# Names that would fall together: what they are called in place of that.
CHOSEN = {
    "busOff": "bus_off",
    "bus-off": "at_bus_off",
    "topUp": "top_up",
    "top_up": "top_up_lem",
    "twoBytes": "two_bytes",
    "two_bytes": "two_bytes_lem",
    "putWord": "put_word",
    "atSlot": "at_slot",
    "isBytes": "is_bytes",
    "isCompared": "is_compared",
    "is-compared": "is_compared_lem",
    "isPassed": "is_passed",
    "is-passed": "is_passed_lem",
    "notAllowed": "not_allowed",
    "ofBlock": "of_block",
    "of-block": "of_block_lem",
    "ofWord": "of_word",
    "has-bits": "has_bits",
}


def files(root, ending):
    for folder, dirs, names in os.walk(os.path.join(root, "crates")):
        dirs[:] = sorted(d for d in dirs if d not in ("out", "must-fail"))
        for name in sorted(names):
            if name.endswith(ending):
                yield os.path.join(folder, name)


def read(path):
    with open(path, encoding="utf-8") as f:
        return f.read()


def is_function_proof(path):
    return "/proofs/" in path and "/" in path.split("/proofs/", 1)[1]


def snake(word):
    return re.sub(r"(?<=[a-z0-9])[A-Z]", lambda m: "_" + m[0].lower(), word)


def declared(text):
    for line in text.split("\n"):
        if line.lstrip().startswith("--"):
            continue
        m = DECLARED.match(line)
        if m:
            for name in m[1].split():
                if name not in KEYWORDS:
                    yield name


def code_words(text):
    return set(WORD.findall(QUIET.sub(" ", text)))


def library_words(text):
    """The names that a file imports from a library."""
    out = set()
    for m in re.finditer(r"(?m)^use ([^\s{]+)\{([^}]*)\}|^ghost use ([^\s{]+)\{([^}]*)\}", text):
        path, items = (m[1], m[2]) if m[1] else (m[3], m[4])
        if not path.startswith("Rattle.") or path.startswith("Rattle.std."):
            for item in items.split(","):
                out.add(item.split(" as ")[-1].strip())
    return out


class Table:
    def __init__(self, root):
        self.root = root
        self.antt = {p: read(p) for p in files(root, ".antt")}
        self.rt = {p: read(p) for p in files(root, ".rt")}
        words = {p: code_words(t) for p, t in self.antt.items()}
        self.words = set().union(*words.values())
        specs, lemmas, aliases = set(), set(), set()
        for p, t in self.antt.items():
            if "/specs/" in p:
                specs.update(declared(t))
            elif not is_function_proof(p):
                lemmas.update(declared(t))
            for m in re.finditer(r"(?m)^use [^\n]*", t):
                aliases.update(a for _, a in ALIAS.findall(m[0]))
        ghost = set()
        for p, t in self.rt.items():
            for m in GHOST_USE.finditer(t):
                aliases.update(a for _, a in ALIAS.findall(m[0]))
                ghost.update(WORD.findall(m[0]))
        self.words |= ghost
        taken = set().union(*(library_words(t) for t in list(self.antt.values()) + list(self.rt.values())))
        taken |= specs | lemmas | aliases
        self.specs, self.lemmas, self.aliases = specs, lemmas, aliases
        heads = LIBRARY | {snake(n).replace("-", "_") for n in specs if not n[:1].isupper()} | {n for n in specs if n[:1].isupper()}
        self.to, self.met = dict(CHOSEN), []
        for name in sorted(specs | aliases):
            if name in CHOSEN or name[:1].isupper() or name.startswith("◌") and "-" not in name:
                continue
            new = snake(name).replace("-", "_")
            if new != name:
                self.put(name, new, taken, "")
        for name in sorted(lemmas - specs - aliases):
            if name in CHOSEN or name[:1].isupper() and "-" not in name:
                continue
            new = self.joined(name, heads)
            if new != name:
                self.put(name, new, taken, "_lem")

    def joined(self, name, heads):
        parts = name.split("-")
        if len(parts) == 1:
            return snake(name)
        bare = [p if p[:1].isupper() else snake(p) for p in parts]
        out = bare[0]
        for i in range(1, len(bare)):
            left = any("_".join(bare[k:i]) in heads for k in range(i))
            right = any("_".join(bare[i:k]) in heads for k in range(i + 1, len(bare) + 1))
            out += ("-" if left and right else "_") + bare[i]
        return out

    def put(self, name, new, taken, ending):
        if new in taken or new in self.to.values():
            self.met.append((name, new))
            if not ending or new + ending in taken or new + ending in self.to.values():
                return
            new += ending
        self.to[name] = new

    def turn(self, text, kept=frozenset(), function_proof=False):
        def word(m):
            before = text[: m.start()] if function_proof else ""
            if function_proof and re.search(r"(?:^|[\s(,{])(?:c|l|tie|goal|g|w|k|given|need)\.$", before[-12:]):
                return m[0]
            return m[0] if m[0] in kept else self.to.get(m[0], m[0])

        return WORD.sub(word, text)

    def comment(self, text):
        return re.sub(r"[A-Za-z][A-Za-z0-9]*", lambda m: self.to.get(m[0], m[0]) if re.search("[a-z][A-Z]", m[0]) else m[0], text)

    def antt_text(self, path, text):
        own = is_function_proof(path)
        kept = library_words(text)
        if own:
            kept |= {n for n in declared(text)}
        out, at = [], 0
        for m in QUIET.finditer(text):
            out.append(self.turn(text[at : m.start()], kept, own))
            out.append(self.comment(m[0]) if m[0].startswith("--") else m[0])
            at = m.end()
        out.append(self.turn(text[at:], kept, own))
        return re.sub(r"(?m)(?<=[{ ])(" + NAME + r") as \1(?=[,}])", r"\1", "".join(out))

    def rt_text(self, text):
        kept = library_words(text)
        out, at = [], 0
        while True:
            found = [m for m in (GHOST_USE.search(text, at), CLAUSE.search(text, at)) if m]
            if not found:
                break
            m = min(found, key=lambda it: it.start())
            out.append(text[at : m.start()])
            if m[0].startswith("ghost") and m[0].endswith(";"):
                end = m.end()
            else:
                depth, end = 1, m.end()
                while depth:
                    depth += {"{": 1, "}": -1}.get(text[end], 0)
                    end += 1
            out.append(self.turn(text[m.start() : end], kept))
            at = end
        out.append(text[at:])
        return re.sub(r"(?<=[{ ])(" + NAME + r") as \1(?=[,}])", r"\1", "".join(out))


def main(argv):
    root = os.getcwd()
    table = Table(root)
    for name, new in table.met:
        print(f"met: {name} would be {new}, which stands for something else: {table.to.get(name, 'left')}")
    for path, text in list(table.antt.items()) + list(table.rt.items()):
        back = {}
        if path.endswith(".rt"):
            continue
        body = re.sub(r"(?<=[\w'])\.(" + NAME + ")", ".", QUIET.sub(" ", re.sub(r"(?m)^((?:ghost )?use )[^\s{]+", r"\1", text)))
        for w in set(WORD.findall(body)):
            back.setdefault(table.to.get(w, w), set()).add(w)
        for n, ws in back.items():
            if len(ws) > 1:
                print(f"together: {os.path.relpath(path, root)}: {' '.join(sorted(ws))} -> {n}")
    if "--check" in argv:
        for name, new in table.to.items():
            print(f"{name}\t{new}")
        return 0
    for path, text in table.antt.items():
        new = table.antt_text(path, text)
        if new != text:
            open(path, "w", encoding="utf-8").write(new)
    for path, text in table.rt.items():
        new = table.rt_text(text)
        if new != text:
            open(path, "w", encoding="utf-8").write(new)
    print(f"respell: {len(table.to)} names")
    return 0


if __name__ == "__main__":
    raise SystemExit(main(sys.argv[1:]))
