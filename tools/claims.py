#!/usr/bin/env python3
"""Lists what is proved, and checks the names that the documents cite.

    tools/claims.py            writes docs/CLAIMS.md: each public law, what it says, and who uses
                               it; each public call with the names of its clauses; each public type
                               and constant; and each file of definitions with the laws that cite it
    tools/claims.py --check    changes nothing; ends with 1 if docs/CLAIMS.md is out of date, or if
                               README.md, a crate's README.md or a document in docs/ cites a law, a
                               call, a clause or a file that is not in the repository

A law is a public function `law_..` without a body: its contract is the theorem.
"""

import argparse
import os
import re
import sys

TOP = os.path.dirname(os.path.dirname(os.path.abspath(__file__)))
CLAIMS = f"{TOP}/docs/CLAIMS.md"
WIDTH = 100
HEAD = """# Claims

This page is written by `tools/claims.py` from the sources: do not edit it. For each crate it lists

- its **laws**: public functions without a body, whose contract is the theorem. They stand in the
  module `laws` of the crate, as `crate::laws::name`;
- its **calls**: public functions and methods, each with the names of its clauses. A clause says
  what the call answers or leaves;
- its **names**: public types, traits and constants;
- its **definitions**: the files of its `specs/`, each with the laws that cite it, of this crate
  and of others.

What these promise together is in [GUARANTEES](GUARANTEES.md), and which definitions have to be
compared with their source in [DEFINITIONS](DEFINITIONS.md).
"""


def read(path):
    with open(path, encoding="utf-8") as file:
        return file.read()


def crates():
    """Returns the names of the repository's crates, in the order of crates.txt."""
    lines = [line.split("#")[0] for line in read(f"{TOP}/crates.txt").splitlines()]
    return [line.partition(":")[0].strip() for line in lines if ":" in line]


def files_of(crate, folder, ending):
    """Returns the files of a crate's folder with that ending, sorted."""
    found = []
    for root, folders, names in os.walk(f"{TOP}/crates/{crate}/{folder}"):
        folders[:] = [it for it in folders if it != "out"]
        found += [os.path.join(root, name) for name in names if name.endswith(ending)]
    return sorted(found)


def first_sentence(doc):
    """Returns the first sentence of a doc comment's lines, as one line of Markdown."""
    text = " ".join(line.strip().removeprefix("///").strip() for line in doc).partition(" # ")[0]
    text = re.sub(r"\[(`[^`]*`)\](\([^)]*\))?", r"\1", text).removeprefix("A law: ")
    end = re.search(r"(?<![.][a-z])[.:](?= [A-Z(\[`]|$)", text)
    sentence = text[: end.start()] + "." if end else text
    return sentence[:1].upper() + sentence[1:]


def laws_of(crate):
    """Returns each public law of a crate with the first sentence of its doc comment."""
    found = {}
    for path in files_of(crate, "src", ".rt"):
        doc = []
        for line in read(path).splitlines():
            text = line.strip()
            law = re.match(r"pub fn (law_\w+)", text)
            if law:
                found[law.group(1)] = first_sentence(doc)
            doc = [*doc, text] if text.startswith("///") else doc if text.startswith("#[") else []
    return found


def calls_of(crate):
    """Returns each public call of a crate: its doc comment's first sentence, its clauses."""
    found = {}
    for path in files_of(crate, "src", ".rt"):
        if "/tests" in path:
            continue
        doc, of, call = [], "", None
        for line in read(path).splitlines():
            text = line.strip()
            block = re.match(r"(?:impl|pub trait)\b(?:<.*?>)? ?(?:(\w+)[^{]* for )?(\w+)", line)
            if block:
                of = "" if block.group(1) else f"{block.group(2)}::"
            elif line == "}":
                of, call = "", None
            start = re.match(r"pub (?:const )?fn (?!law_)(\w+)", text)
            if start and doc:
                call = f"{of}{start.group(1)}"
                found[call] = first_sentence(doc), []
            elif re.match(r"(pub(\(\w+\))? )?(const )?fn ", text):
                call = None
            clause = re.match(r"ensures (\w+) \{", text)
            if clause and call:
                found[call][1].append(clause.group(1))
            doc = [*doc, text] if text.startswith("///") else doc if text.startswith("#[") else []
    return found


def names_of(crate):
    """Returns each public type, trait and constant of a crate: its doc comment's first sentence."""
    found = {}
    for path in files_of(crate, "src", ".rt"):
        if "/tests" in path:
            continue
        doc = []
        for line in read(path).splitlines():
            text = line.strip()
            name = re.match(r"pub (?:struct|enum|trait|type|const) (?!fn\b)(\w+)", text)
            if name and doc:
                found[name.group(1)] = first_sentence(doc)
            doc = [*doc, text] if text.startswith("///") else doc if text.startswith("#[") else []
    return found


def heading_of(path):
    """Returns the first sentence of the comment that begins a file of definitions."""
    lines = []
    for line in read(path).splitlines():
        if not line.startswith("--"):
            break
        lines.append(line.removeprefix("--").strip())
    return first_sentence(lines)


def citations_of(crate):
    """Yields each law of a crate with each file of definitions that its contract cites."""
    for path in files_of(crate, "src", ".rt"):
        text = read(path)
        imports = re.findall(r"ghost use Rattle\.(\w+)\.specs\.(\w+)\.\{([^}]*)\}", text)
        names = [
            (of, file, {it.split(" as ")[-1].strip() for it in listed.split(",")})
            for of, file, listed in imports
        ]
        for law, contract in re.findall(r"pub fn (law_\w+)\(\)(.*?)\n\{", text, re.S):
            words = set(re.findall(r"[^\s(){},.]+", contract))
            for of, file, listed in names:
                if words & listed:
                    yield law, crate, of, file


def definitions_of(citations, crate):
    """Returns each file of a crate's definitions: its heading, and the laws that cite it."""
    found = {}
    for path in files_of(crate, "specs", ".antt"):
        name = os.path.basename(path).removesuffix(".antt")
        cited = [it for it in citations if it[2:] == (crate, name)]
        laws = [law if of == crate else f"{of}::{law}" for law, of, _, _ in cited]
        if name != "Lib":
            found[name] = heading_of(path), sorted(dict.fromkeys(laws))
    return found


def users_of(laws, texts):
    """Returns for each law the crates, other than its own, whose sources name it."""
    return {
        law: sorted({it for it, text in texts.items() if it != crate and law in text})
        for crate, names in laws.items()
        for law in names
    }


def wrapped(text, indent):
    """Breaks a line at blanks, so that no line is wider than the documents allow."""
    lines, line = [], ""
    for word in text.split():
        if line and len(line) + 1 + len(word) > WIDTH:
            lines, line = [*lines, line], " " * indent + word
        else:
            line = f"{line} {word}" if line else word
    return "\n".join([*lines, line])


def law_lines(laws, users):
    """Returns the lines of a crate's laws."""
    for law, sentence in sorted(laws.items()):
        used = f" Used by: {', '.join(users[law])}." if users[law] else ""
        yield f"- `{law}`: {sentence}{used}"


def call_lines(calls):
    """Returns the lines of a crate's calls."""
    for call, (sentence, clauses) in sorted(calls.items()):
        named = f" Clauses: {', '.join(f'`{it}`' for it in clauses)}." if clauses else ""
        yield f"- `{call}`: {sentence}{named}"


def name_lines(names):
    """Returns the lines of a crate's types, traits and constants."""
    for name, sentence in sorted(names.items()):
        yield f"- `{name}`: {sentence}"


def definition_lines(definitions):
    """Returns the lines of a crate's definitions."""
    for name, (sentence, laws) in sorted(definitions.items()):
        cited = f" Laws: {', '.join(f'`{it}`' for it in laws)}." if laws else ""
        yield f"- `{name}`: {sentence}{cited}"


def page():
    """Returns the text of docs/CLAIMS.md."""
    laws = {crate: laws_of(crate) for crate in crates()}
    words = {
        crate: set(re.findall(r"\w+", " ".join(map(read, files_of(crate, "src", ".rt")))))
        for crate in laws
    }
    users = users_of(laws, words)
    citations = [it for crate in laws for it in citations_of(crate)]
    parts = [HEAD]
    for crate, names in sorted(laws.items()):
        lists = {
            "laws": law_lines(names, users),
            "calls": call_lines(calls_of(crate)),
            "names": name_lines(names_of(crate)),
            "definitions": definition_lines(definitions_of(citations, crate)),
        }
        for title, lines in lists.items():
            text = "".join(f"{wrapped(line, 2)}\n" for line in lines)
            parts += [f"\n## {crate}: {title}\n\n", text] if text else []
    return "".join(parts)


def declared():
    """Returns for each crate all the words of its sources, definitions and proofs' file names."""
    known = {}
    for crate in crates():
        files = files_of(crate, "src", ".rt") + files_of(crate, "specs", ".antt")
        known[crate] = set(re.findall(r"\w+", " ".join(map(read, files))))
    return known


def clauses_by_name():
    """Returns for each public call and law, by its last name, the names of its clauses."""
    clauses = {}
    for crate in crates():
        for call, (_, named) in calls_of(crate).items():
            clauses.setdefault(call.rpartition("::")[2], set()).update(named)
        for path in files_of(crate, "src", ".rt"):
            for name, contract in re.findall(r"\bfn (\w+)(.*?)\n *[{}]", read(path), re.S):
                clauses.setdefault(name, set()).update(re.findall(r"ensures (\w+) ", contract))
    return clauses


def names_missing(line, known):
    """Yields what a line cites of crates, laws and definitions that is not there."""
    for cited in re.findall(r"`([^`\n]+)`", line):
        for crate, name in re.findall(r"\b([a-z_]+)::((?:\w+::)*\w+)", cited):
            words = name.split("::") if crate in known else []
            yield from (f"`{crate}::{name}`: no {it}" for it in words if it not in known[crate])
        for law in re.findall(r"\blaw_\w+", cited):
            if not any(law in words for words in known.values()):
                yield f"`{law}`: no such law"
        for crate, spec in re.findall(r"\b([a-z_]+)/(?:specs/)?([A-Z]\w+)(?:\.antt)?\b", cited):
            if crate in known and not os.path.exists(f"{TOP}/crates/{crate}/specs/{spec}.antt"):
                yield f"`{crate}/{spec}`: no such file of definitions"
        for file in re.findall(r"^(?:crates|docs|tools|bench|examples)/[\w./-]+$", cited):
            if not os.path.exists(f"{TOP}/{file}") and "NAME" not in file and "/out/" not in file:
                yield f"`{file}`: no such file"


def clauses_missing(text, clauses):
    """Yields the clauses that a document cites of a call which has no such clause."""
    named = r"`(?:\w+::)*(\w+)`(?: \(|, clauses? )((?:`\w+`(?:, | and )?)+)"
    for call, cited in re.findall(named, " ".join(text.split())):
        for clause in re.findall(r"\w+", cited.replace(" and ", " ")):
            if call in clauses and clause not in clauses[call] | clauses.keys():
                yield f"`{call}` has no clause `{clause}`"


def faults_in(path, known, clauses):
    """Returns what a document cites that is not there, and its lines that are too wide."""
    text = read(path)
    faults = [f"{path}: {it}" for it in clauses_missing(text, clauses)]
    for number, line in enumerate(text.splitlines(), 1):
        faults += [f"{path}:{number}: {it}" for it in names_missing(line, known)]
        for link in re.findall(r"\]\(([^)#:]+)(?:#[^)]*)?\)", line):
            if not os.path.exists(os.path.join(os.path.dirname(path), link)):
                faults.append(f"{path}:{number}: link to {link}: no such file")
        if len(line) > WIDTH:
            faults.append(f"{path}:{number}: over {WIDTH} columns")
    return faults


def check():
    """Returns the faults of the documents."""
    known, clauses = declared(), clauses_by_name()
    pages = [it for it in sorted(os.listdir(f"{TOP}/docs")) if it.endswith(".md")]
    documents = [f"{TOP}/{it}/README.md" for it in ("tools", "examples")]
    documents += [f"{TOP}/README.md", *(f"{TOP}/docs/{it}" for it in pages)]
    documents += [f"{TOP}/crates/{it}/README.md" for it in crates()]
    faults = [fault for it in documents for fault in faults_in(it, known, clauses)]
    if not os.path.exists(CLAIMS) or read(CLAIMS) != page():
        faults.append(f"{CLAIMS}: out of date; run tools/claims.py")
    return faults


def main():
    words = argparse.ArgumentParser(
        description=__doc__, formatter_class=argparse.RawDescriptionHelpFormatter
    )
    words.add_argument("--check", action="store_true", help="change nothing, and say what is wrong")
    if words.parse_args().check:
        faults = check()
        print("\n".join(it.removeprefix(f"{TOP}/") for it in faults), end="\n" if faults else "")
        return 1 if faults else 0
    with open(CLAIMS, "w", encoding="utf-8") as file:
        file.write(page())
    return 0


if __name__ == "__main__":
    sys.exit(main())
