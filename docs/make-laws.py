#!/usr/bin/env python3
"""Makes docs/LAWS.md: an index of the laws and the calls of each crate, from their doc comments.

    python3 docs/make-laws.py           writes docs/LAWS.md
    python3 docs/make-laws.py --check   exits 1 where docs/LAWS.md is not what this would write
"""
import re
import sys
from pathlib import Path

ROOT = Path(__file__).resolve().parent.parent
PAGE = ROOT / "docs" / "LAWS.md"

HEAD = """# Laws

`python3 docs/make-laws.py` makes this page from `crates.txt` and the doc comments: change those.

It is an index. Under each crate are its *laws*, public functions whose contract is the fact and
whose body only calls other laws, and those calls of code whose contract has more than one clause.
A row is the first sentence of a doc comment, cut short: `..` before it stands for premises, and
`..` after it for more. The promise, its premises and its clauses are at the function. Worked and
wrong examples are named only. What a user may rely on is in [PROMISES.md](PROMISES.md), by
question.

Some premises are common, and comments may leave them out:

- of runs: each public address has six octets, a controller has one place in the order in which
  they transmit, eight buffers each way, and at most 4096 links; so it is in runs of the program;
- of laws with `words` over lines: these are the random words that the sides draw;
- of both ends of a link: no packet of it before mixed two session keys;
- of joint runs: the run goes on, the link begins with a latency of at most 499 events, and what
  the hosts ask is in its range.
"""

# At most how many words a row of a law has, and one of a call.
LAW_WORDS, CALL_WORDS = 21, 15
# Crates of which all laws are examples.
EXAMPLES = ("wrong_journals", "sealed_journals")

FUNCTION = re.compile(r"( *)pub (?:const )?fn (\w+)")
IN_TRAIT = re.compile(r"( +)fn (\w+)")
OWNER = re.compile(r"(?:impl|pub trait)(?:<.*?>)? (?:.* for )?(\w+)")
CLAUSE = re.compile(r" *(?:ensures|requires) ")
# A line of the body of a law.
CALL = re.compile(r"(?:\w+::)*\w+\(\);|//.*|")
CITATION = re.compile(r" \((?:Core 5\.2|FIPS|RFC|our choice|sections?|volume)[^)]*\)")
# Words at the beginning of a sentence that say of which runs or journals it is.
PREMISE = re.compile(
    r"In any journal in which [^:]*: |(?:In|Of|At any (?:time|place) of|Before each turn of) "
    r"(?:the journal of )?(?:a|any|each|every|such a|such)(?: whole)? (?:run|journal)"
    r"(?: of (?:a pair|two \w+))?(?:,? (?:also|with (?:any|at most|up to)|each (?:with|of which)|"
    r"whole or|whatever|where each (?:\w+ )?(?:has|can)|before each turn|and at (?:its|the) end|"
    r"on each link|as long as)\b[^,:]*)*[,:] "
)


def sentence(comment):
    """The first sentence of a comment, without citations."""
    first = comment[: comment.index("")] if "" in comment else comment
    text = " ".join(" ".join(first).split())
    text = re.split(r"(?<!\.)\.(?= +[A-Z`(]|$)", text, maxsplit=1)[0]
    text = re.sub(r"\[(`[^`]*`)\](?:\([^)]*\))?", r"\1", text)
    return CITATION.sub("", text).rstrip(":")


def cut(text, most):
    """A sentence of at most so many words, cut where a part of it ends."""
    premise = PREMISE.match(text)
    lead = ".. " if premise else ""
    words = (text[premise.end() :] if premise else text).split()
    if len(words) <= most:
        return lead + " ".join(words)
    ends = [n for n in range(most // 2, most + 1) if words[n - 1][-1] in ",;:"]
    return lead + " ".join(words[: ends[-1] if ends else most]).rstrip(",;:") + " .."


def clauses_and_body(lines, start, indent):
    """How many clauses the function in this line has, and the lines of its body."""
    at = start
    while lines[at] != indent + "{" and not lines[at].endswith((";", "{}")):
        if lines[at].endswith(" {") and (at == start or lines[at].startswith(indent + ")")):
            break
        at += 1
    end = at if lines[at].endswith((";", "{}")) else lines.index(indent + "}", at)
    clauses = sum(bool(CLAUSE.match(l)) for l in lines[start : at + 1])
    return clauses, [l.strip() for l in lines[at + 1 : end]]


def functions(file):
    """Of each public function with a comment: its name, its first sentence, and `law`, `call` or ``."""
    lines = file.read_text().splitlines()
    owner, trait, comment = None, False, []
    for at, line in enumerate(lines):
        if line.strip().startswith(("///", "#[")):
            comment += [line.strip()[3:].strip()] if "///" in line else []
            continue
        if OWNER.match(line):
            owner, trait = OWNER.match(line).group(1), line.startswith("pub trait")
        elif line == "}":
            owner, trait = None, False
        found = FUNCTION.match(line) or (trait and IN_TRAIT.match(line))
        if found and comment:
            clauses, body = clauses_and_body(lines, at, found.group(1))
            name = f"{owner}::{found.group(2)}" if owner else found.group(2)
            is_law = line.endswith("()") and clauses and all(CALL.fullmatch(l) for l in body)
            yield name, sentence(comment), "law" if is_law else "call" if clauses > 1 else ""
        comment = []


def section(crate):
    """The section of a crate: what it is for, its calls, its laws and its examples."""
    sources = ROOT / "crates" / crate / "src"
    main = next(f for f in (sources / "lib.rt", sources / "main.rt") if f.exists()).read_text()
    top = [l[3:].strip() for l in main.splitlines() if l.startswith("//!")]
    calls, laws, examples = [], [], []
    for file in sorted(sources.rglob("*.rt")):
        is_open = re.search(rf"pub mod {file.stem};", main)
        for name, text, kind in functions(file):
            if not is_open and not re.search(rf"\b{name.split('::')[0]}\b", main):
                continue
            if kind == "call":
                calls.append(f"- `{name}`: {cut(text, CALL_WORDS)}")
            elif kind == "law" and (crate in EXAMPLES or file.stem == "rows" or name[:7] == "worked_"):
                examples.append(f"`{name}`")
            elif kind == "law":
                laws.append(f"- `{name}`: {cut(text, LAW_WORDS)}")
    out = [f"### {crate}", "", sentence(top) + ".", ""]
    for title, rows in (("Calls:", calls), ("Laws:", laws)):
        out += [title, "", *rows, ""] if rows else []
    return out + (["Examples: " + ", ".join(examples) + ".", ""] if examples else [])


def page():
    """The whole page, section by section as in crates.txt."""
    out = [HEAD]
    for line in (ROOT / "crates.txt").read_text().splitlines()[1:]:
        if line.startswith("#"):
            out += ["## " + line[1:].strip(), ""]
        elif line.strip():
            out += section(line.split(":")[0])
    return "\n".join(out).rstrip() + "\n"


if __name__ == "__main__":
    if sys.argv[1:] == ["--check"]:
        if not PAGE.exists() or PAGE.read_text() != page():
            sys.exit("docs/LAWS.md is not up to date: run python3 docs/make-laws.py")
    else:
        PAGE.write_text(page())
