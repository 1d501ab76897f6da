#!/usr/bin/env python3
"""Spells the names that crates/*/specs and crates/*/proofs declare as respell.tsv, beside this script, has them.

usage: respell.py [ROOT]

ROOT is the top of a tree that the kit's port.py has just turned; without it, this repository. Files are rewritten in place. Run it once: some words of the
table stand on both of its sides. It was run when the repository came to the Rattle of docs/PORT.md, and is kept so that the step can be made again from
the commit before.

A line of respell.tsv has a module, what the name is, the name as it was and as it is now. A name is turned where its module declares it, where another file
imports it or reaches it by the module's name, in specs/, proofs/, and the clauses and `ghost use` lines of src/; a field is turned behind a dot and in a
record. Variables that a file binds turn from aB and a-b to a_b. Comments follow. Types, modules, names of src/ and of the kit's libraries stay.
"""
import os
import re
import sys

HERE = os.path.dirname(os.path.abspath(__file__))
WORD = re.compile(r'[^\s(){}.;,@"«»]+')
HUMP = re.compile(r"[a-z][^.]*?[a-z0-9][A-Z]")
# In a file of proofs: strings, and comments in their two forms. In a source: the same.
QUIET = {
    ".antt": re.compile(r'"(?:[^"\\\n]|\\.)*"|(?<![^\s(){}.;,@"«»])--[^\n]*|\{-.*?-\}', re.S),
    ".rt": re.compile(r'"(?:\\.|[^"\\])*"|//[^\n]*|/\*.*?\*/', re.S),
}
IMPORT = {
    ".antt": re.compile(r"^ *(?:pub )?use ([^\s{;]+?)(?:\.\{([^}]*)\})?(?: as ([^\s;]+))?[ ;]*$", re.M),
    ".rt": re.compile(r"ghost\s+use\s+([^\s{;]+?)(?:\.\{([^}]*)\})?(?:\s+as\s+([^\s;]+))?\s*;"),
}
DECLARED = re.compile(rf"^ *(?:(?:pub|abbrev|unfoldable) )*({WORD.pattern}) :(?=\s|$)", re.M)
BINDERS = [rf"\blet ({WORD.pattern})(?= *[=:] )", r"λ ([^.]*?)\. ", rf"[({{]((?:{WORD.pattern} )+): ", r"(?m)^([^\n=]*) =(?: |$)", r"([^\[\]|\n]*?) ↦ "]
CLAUSE = re.compile(r"(?:requires|ensures)\s*\*?\s*(?:\w+\s*)?\{|ghost\s*(?:\w+\s*(?::\s*(?:(?:owns|lends)\s*)?|=\s*))?\{")


def apart(name):
    """aB and a-b as a_b"""
    return re.sub(r"(?<=[a-z0-9])(?=[A-Z])|(?<=[A-Z])(?=[A-Z][a-z])", "_", name.replace("-", "_")).lower()


class Table:
    def __init__(self):
        self.names, self.fields, self.meant = {}, {}, {}
        with open(os.path.join(HERE, "respell.tsv"), encoding="utf-8") as rows:
            for row in rows:
                module, kind, old, new = row.rstrip("\n").split("\t")
                self.names.setdefault(module, {})[old] = new
                self.meant.setdefault(old, new)
                if kind == "field":
                    self.fields[old] = new


class File:
    """One text, with what each word in it stands for."""

    def __init__(self, table, path, text, modules):
        self.table, self.text, self.modules = table, text, modules
        self.kind = os.path.splitext(path)[1]
        self.code = QUIET[self.kind].sub(lambda m: re.sub(r"[^\n]", " ", m[0]), text)
        self.scope, self.aliases, self.imports = {}, {}, []
        for m in IMPORT[self.kind].finditer(self.code):
            self.imports.append((m.start(), m.end(), m.end() if m[2] is None else m.start(2), m[1]))
            for item in (m[2] or "").split(","):
                words = item.replace("«", "").replace("»", "").split()
                if words:
                    self.bring_in(m[1], words[0], words[-1])
            if m[2] is None:
                self.aliases[m[3] or m[1].split(".")[-1]] = m[1]
        self.scope.update(table.names.get(module_name(path), {}))
        if self.kind == ".rt":
            self.code = self.cited()
        self.bound = {word for binder in BINDERS for m in re.finditer(binder, self.code) for word in WORD.findall(m[1])}
        self.bound -= set(DECLARED.findall(self.code))

    def bring_in(self, module, name, called):
        new = self.table.names.get(module, {}).get(name, name)
        if name != called:
            new = apart(called) if module in self.modules and HUMP.match(called) else called
        self.scope[called] = new

    def cited(self):
        """Of a source, what is in clauses and `ghost use` lines; the rest as blanks."""
        spans = [(start, end) for start, end, _, _ in self.imports]
        m = CLAUSE.search(self.code)
        while m:
            depth, end = 1, m.end()
            while end < len(self.code) and depth:
                depth += {"{": 1, "}": -1}.get(self.code[end], 0)
                end += 1
            spans.append((m.end(), end - 1))
            m = CLAUSE.search(self.code, end)
        out = list(re.sub(r"[^\n]", " ", self.code))
        for start, end in spans:
            out[start:end] = self.code[start:end]
        return "".join(out)

    def turned(self):
        parts, last = [], 0
        for m in WORD.finditer(self.code):
            new = self.word(m[0], m.start(), m.end())
            if new != m[0]:
                parts += [self.text[last:m.start()], new]
                last = m.end()
        return self.comments("".join(parts) + self.text[last:])

    def word(self, word, start, end):
        for first, behind, items, module in self.imports:
            if first <= start < behind:
                return self.imported(word, start, items, module)
        if start > 1 and self.code[start - 1] == "." and not self.code[start - 2].isspace():
            return self.behind_dot(word, start)
        if word in self.table.fields and re.match(r" =[ \n]", self.code[end:end + 2]) and re.search(r"[{;]\s*$", self.code[max(0, start - 300):start]):
            return self.table.fields[word]
        if word in self.scope:
            return self.scope[word]
        variable = HUMP.match(word) or "-" in word and word in self.bound and re.match("[A-Za-z]", word)
        return apart(word) if variable and word not in self.aliases else word

    def imported(self, word, start, items, module):
        if start < items:
            return word
        if re.search(r"\sas\s+$", self.code[items:start]):
            return self.scope[word]
        return self.table.names.get(module, {}).get(word, word)

    def behind_dot(self, word, start):
        """A name of a module that is written out or has a name here, or else a field."""
        chain = re.search(rf"((?:{WORD.pattern}\.)+)$", self.code[max(0, start - 200):start])
        if chain:
            head = chain[1].rstrip(".").split(".")
            module = ".".join([self.aliases.get(head[0], head[0])] + head[1:])
            if module in self.modules or head[0] in self.aliases:
                return self.table.names.get(module, {}).get(word, word)
        return self.table.fields.get(word, word)

    def comments(self, text):
        """Names in comments: those that the file knows, or that only one thing has."""
        def name(m):
            return self.scope.get(m[0], self.table.meant.get(m[0], m[0])) if HUMP.match(m[0]) else m[0]

        def comment(m):
            if m[0].startswith('"'):
                return m[0]
            quoted = lambda q: "`" + re.sub(r"[^\s`(){}.;,]+", lambda w: self.scope.get(w[0], w[0]), q[1]) + "`"
            text = re.sub(r"`([^`\n]+)`", quoted, m[0]) if self.kind == ".antt" else m[0]
            return re.sub(r"(?<![\w./:-])[a-z]\w*(?![\w-])", name, text)

        return QUIET[self.kind].sub(comment, text)


def module_name(path):
    """crates/bits/specs/Words.antt is Rattle.bits.specs.Words"""
    return "Rattle." + ".".join(os.path.splitext(path)[0].split(os.sep)[1:])


def main():
    root = sys.argv[1] if len(sys.argv) > 1 else os.path.dirname(HERE)
    paths = []
    for folder, dirs, files in os.walk(os.path.join(root, "crates")):
        dirs[:] = [d for d in dirs if d not in ("out", "must-fail", "data")]
        paths += [os.path.relpath(os.path.join(folder, f), root) for f in files if f.endswith((".antt", ".rt"))]
    modules = {module_name(path) for path in paths if path.endswith(".antt")}
    table, changed = Table(), 0
    for path in sorted(paths):
        with open(os.path.join(root, path), encoding="utf-8", newline="") as f:
            text = f.read()
        new = File(table, path, text, modules).turned()
        if new != text:
            changed += 1
            with open(os.path.join(root, path), "w", encoding="utf-8", newline="") as f:
                f.write(new)
    print(f"{changed} files changed")


if __name__ == "__main__":
    main()
