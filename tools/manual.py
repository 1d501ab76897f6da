#!/usr/bin/env python3
"""Makes the manual pages out of texts that stand elsewhere, so that nothing is written twice.

  manual.py keylocker-simulator VERSION  keylocker-simulator(1), from that program's help on standard input
  manual.py keylocker-run VERSION        the same of keylocker-run(1)
  manual.py traces VERSION               keylocker-traces(5), from simulator/TRACES.md on standard input

Of Markdown it knows what TRACES.md uses: headings, paragraphs, lists, tables, code in fences or indented; and in a line code, bold and links.
"""

import functools
import re
import sys
import textwrap

BOLD, ITALIC, ROMAN = r"\fB", r"\fI", r"\fR"
SPECIAL = {"\\": r"\e", "^": r"\(ha", "~": r"\(ti"}
# what is to be typed as it stands: roff would make a hyphen and quotes of these
TYPED = SPECIAL | {"-": r"\-", "'": r"\(aq", "`": r"\(ga"}


# ---- roff


def escaped(text, special):
    return "".join(special.get(c, c if c.isascii() else f"\\[u{ord(c):04X}]") for c in text)


def typed(text):
    return escaped(text, TYPED)


def prose(text):
    """Hyphens stay; one that stands alone is a minus."""
    return re.sub(r"(?<!\S)-(?!\S)", r"\\-", escaped(text, SPECIAL))


def text_lines(text):
    """Lines of which none begins as a request does."""
    return [rf"\&{line}" if line[:1] in (".", "'") else line for line in text.splitlines()]


def section(title):
    """In capitals, but for code."""
    return [f".SH {typed(''.join(part if i % 2 else part.upper() for i, part in enumerate(title.split('`'))))}"]


def paragraph(text):
    return [".PP", *text_lines(text)]


def tagged(tag, text):
    return [".TP", *text_lines(tag), *text_lines(text)]


def verbatim(text):
    """.EE turns hyphenation on again."""
    return [".PP", ".in +4n", ".EX", *text_lines(typed(text)), ".EE", ".nh", ".in"]


def page(name, number, version, purpose, body, see_also):
    """Neither hyphenated nor justified: much of it is to be typed."""
    return [
        f'.TH {typed(name.upper())} {number} "" "keylocker {version}"',
        ".nh",
        ".ad l",
        *section("Name"),
        rf"{typed(name)} \- {purpose}",
        *body,
        *section("See also"),
        *text_lines(see_also),
    ]


# ---- the programs, from their help

PURPOSES = {
    "keylocker-simulator": "replay calls on an emulated Intel Key Locker machine",
    "keylocker-run": "run a program with Intel Key Locker where the processor lacks it",
}
SEE_ALSO = {"keylocker-simulator": "keylocker-run(1), keylocker-traces(5)", "keylocker-run": "keylocker-simulator(1), keylocker-traces(5)"}


def styled(text, operands):
    """Options and names of pages bold, operands of the usage italic."""
    parts = re.split(rf"((?<![\w-])--?[a-z][\w-]*|keylocker-[a-z]+|\b(?:{'|'.join(operands)})\b)", text)
    return "".join(f"{ITALIC if part in operands else BOLD}{typed(part)}{ROMAN}" if i % 2 else typed(part) for i, part in enumerate(parts))


def options(text, operands):
    """An option begins a line; what it does stands behind it, after two blanks or more, and goes on in lines that begin with none."""
    entries = re.findall(r"^ *(-.*?)(?:  +(.*(?:\n +(?![ -]).*)*))?$", text, re.M)
    return [line for option, meaning in entries for line in tagged(styled(option, operands), styled(re.sub(r"\n +", "\n", meaning), operands))]


def program(name, version, text):
    """What a help says of the machine that it is printed on is not for a page."""
    if not text.startswith("usage: "):
        sys.exit(f"tools/manual.py: this is no help: {text[:80]!r}")
    usage, *paragraphs = text.replace("simulator/TRACES.md", "keylocker-traces(5)").strip("\n").split("\n\n")
    usage = textwrap.dedent(usage.replace("usage:", "      ", 1))
    operands = sorted(set(re.findall(r"\b[A-Z]+\b", usage)))
    described, listed, status = [], [], []
    for part in paragraphs:
        if part.startswith(" "):
            listed += options(part, operands)
        elif part.startswith("Here: "):
            continue
        elif part.startswith("Exit status: "):
            status += paragraph(styled(part.removeprefix("Exit status: "), operands))
        else:
            described += paragraph(styled(part, operands))
    synopsis = [".nf", *text_lines(styled(usage, operands)), ".fi"]
    sections = {"Synopsis": synopsis, "Description": described, "Options": listed, "Exit status": status}
    body = [line for title, part in sections.items() for line in [*section(title), *part]]
    return page(name, 1, version, PURPOSES[name], body, styled(SEE_ALSO[name], operands))


# ---- the trace language, from Markdown

SPAN = re.compile(r"`(?P<code>[^`]+)`|\*\*(?P<bold>.+?)\*\*|\[(?P<link>[^]]+)\]\([^)]+\)", re.S)
BLOCK = re.compile(
    r"^```\w*\n(?P<fence>(?s:.*?))^```$"
    r"|^(?P<heading>#+ .*)$"
    r"|(?P<table>(?:^\|.*\n?)+)"
    r"|(?P<list>^- .*\n?(?:^(?:- |  ).*\n?)*)"
    r"|(?P<indented>(?:^ {4}.*\n?)+)"
    r"|(?P<text>^\S.*(?:\n(?!```|#|\||- )\S.*)*)",
    re.M,
)


def span(found):
    if found["code"]:
        return f"{BOLD}{typed(found['code'])}{ROMAN}"
    if found["bold"]:
        return f"{BOLD}{prose(found['bold'].replace('`', ''))}{ROMAN}"
    return inline(found["link"])


def inline(text):
    """Code directly behind code gets a comma between: on a page nothing else would part the two."""
    text = re.sub(r"(?<![\s(])` `(?![\s)])", "`, `", text)
    out, at = [], 0
    for found in SPAN.finditer(text):
        out += [prose(text[at : found.start()]), span(found)]
        at = found.end()
    return "".join(out) + prose(text[at:])


def heading(text):
    marks, title = text.split(" ", 1)
    return section(title) if len(marks) < 3 else [f".SS {typed(title.replace('`', ''))}"]


def cells(row):
    return [cell.strip().replace(r"\|", "|") for cell in re.split(r"(?<!\\)\|", row.strip()[1:-1])]


def table(text):
    """The first cell of a row is a tag, the others are what it means; of the head the first alone is needed."""
    head, _, *rows = map(cells, text.splitlines())
    entries = [line for tag, *rest in rows for line in tagged(inline(tag), inline("; ".join(filter(None, rest))))]
    return [*paragraph(f"{ITALIC}{inline(head[0])}{ROMAN}"), *entries]


def items(text):
    entries = re.split(r"^- ", text, flags=re.M)[1:]
    return [line for entry in entries for line in [r".IP \(bu 2", *text_lines(inline(re.sub(r"\n +", "\n", entry.rstrip())))]]


MAKERS = {
    "fence": verbatim,
    "heading": heading,
    "table": table,
    "list": items,
    "indented": lambda text: verbatim(textwrap.dedent(text)),
    "text": lambda text: paragraph(inline(text)),
}


def markdown(text):
    if left := BLOCK.sub("", text).strip():
        sys.exit(f"tools/manual.py: not a kind of block that it knows: {left[:80]!r}")
    return [line for block in BLOCK.finditer(text) for line in MAKERS[block.lastgroup](block[block.lastgroup])]


def traces(version, text):
    """Below its title TRACES.md has the usage."""
    _, usage, rest = text.split("\n\n", 2)
    body = [*section("Synopsis"), *markdown(usage), *section("Description"), *markdown(rest)]
    return page("keylocker-traces", 5, version, "the language of the traces that keylocker-simulator replays", body, rf"{BOLD}keylocker\-simulator{ROMAN}(1), {BOLD}keylocker\-run{ROMAN}(1)")


def main():
    pages = {name: functools.partial(program, name) for name in PURPOSES} | {"traces": traces}
    if len(sys.argv) != 3 or sys.argv[1] not in pages:
        sys.exit(__doc__)
    print("\n".join(pages[sys.argv[1]](sys.argv[2], sys.stdin.read())))


if __name__ == "__main__":
    main()
