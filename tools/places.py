#!/usr/bin/env python3
"""Counts the places that docs/DESIGN-PASS.md speaks of: python3 tools/places.py [REV] [-v].

Reads the files of a revision (HEAD where none is named; '.' for the files as they lie here). With -v each place is printed, as
crate/file:line: text. It finds places by their spelling alone; which of them are places of a point is said in docs/DESIGN-PASS.md.
"""
import re
import subprocess
import sys
from collections import defaultdict

SOURCE = re.compile(r"crates/[a-z_0-9]+/src/.*\.rt$")
PROOF = re.compile(r"crates/[a-z_0-9]+/proofs/.*\.antt$")


def run(*words):
    return subprocess.run(words, check=True, capture_output=True, text=True).stdout


def files(revision, wanted):
    if revision == ".":
        names = run("git", "ls-files", "-co", "--exclude-standard", "crates").split("\n")
    else:
        names = run("git", "ls-tree", "-r", "--name-only", revision, "crates").split("\n")
    for name in names:
        if wanted.search(name):
            try:
                text = open(name).read() if revision == "." else run("git", "show", f"{revision}:{name}")
            except FileNotFoundError:
                continue
            yield name, text


def spelled(sources, pattern):
    pattern = re.compile(pattern)
    for name, text in sources:
        for number, line in enumerate(text.split("\n"), 1):
            if pattern.search(line.split("//")[0]):
                yield f"{name}:{number}: {line.strip()[:110]}"


def functions(sources):
    """Name of the file, line, head (up to the body) and body of each function."""
    for name, text in sources:
        text = re.sub(r"//[^\n]*", "", text)
        for found in re.finditer(r"\bfn ([a-z_0-9]+)", text):
            start = text.find("\n{", found.start())
            same_line = text.find(" {\n", found.start())
            line_end = text.find("\n", found.start())
            if 0 <= same_line < line_end or start < 0:
                start = same_line + 1
            else:
                indented = re.compile(r"\n *\{\n").search(text, found.start())
                start = indented.end() - 2 if indented else start + 1
            depth, end = 0, start
            while end < len(text):
                depth += {"{": 1, "}": -1}.get(text[end], 0)
                end += 1
                if depth == 0:
                    break
            yield name, text.count("\n", 0, found.start()) + 1, found.group(1), text[found.end():start], text[start:end]


def shape(body):
    """A body with numbers, constants, types and the names of its own values left out."""
    names = {}

    def rename(found):
        word = found.group(0)
        if word in ("if", "else", "while", "loop", "for", "in", "match", "return", "let", "mut", "as", "break", "true", "false", "self"):
            return word
        if re.fullmatch(r"(u|i)(8|16|32|64)|usize|bool|[0-9].*|[A-Z].*", word):
            return "T"
        return names.setdefault(re.sub(r"[0-9]+", "", word), f"v{len(names)}")

    return re.sub(r"\s+", " ", re.sub(r"[A-Za-z_0-9]+", rename, body))


def twins(sources):
    groups = defaultdict(list)
    for name, line, function, _, body in functions(sources):
        key = shape(body)
        if len(key) > 60:
            groups[key].append(f"{name}:{line}: {function}")
    for places in groups.values():
        if len(places) > 1:
            yield " = ".join(places)


def repeated_names(sources):
    groups = defaultdict(list)
    for name, text in sources:
        for word in re.findall(r"^ *(?:pub )?((?:fn|struct|enum) [A-Za-z_0-9]+)", text, re.M):
            groups[word].append(name.split("/")[1])
    for word, crates in sorted(groups.items()):
        if len(crates) > 1 and word != "fn main":
            yield f"{word}: {' '.join(crates)}"


def repeated_facts(sources):
    groups = defaultdict(set)
    for name, text in sources:
        for index, clause in enumerate(re.findall(r"requires (?:[a-z_]+ )?\{ (.*) \}$", text, re.M)):
            for fact in re.split(r" × ", clause):
                groups[(name.split("/")[1], fact.strip("( )"))].add((name, index))
    for (crate, fact), places in sorted(groups.items()):
        if len(places) >= 3:
            yield f"{crate}: {fact} ({len(places)} functions)"


def travelling(sources):
    groups = defaultdict(set)
    for name, line, function, head, _ in functions(sources):
        parameters = re.findall(r"([a-z_]+): ([^,()]+)", head.split("ensures")[0].split("requires")[0].split("->")[0])
        words = [f"{n}: {t.strip()}" for n, t in parameters]
        for i, first in enumerate(words):
            for second in words[i + 1:]:
                groups[(name.split("/")[1], first, second)].add(function)
    for (crate, first, second), places in sorted(groups.items()):
        if len(places) >= 3:
            yield f"{crate}: {first}, {second} ({len(places)} functions)"


def main():
    words = [word for word in sys.argv[1:] if word != "-v"]
    revision = words[0] if words else "HEAD"
    sources = list(files(revision, SOURCE))
    proofs = list(files(revision, PROOF))
    answers = [f"{name}: {text.count(chr(10))} lines" for name, text in proofs if name.endswith("Answers.antt")]
    sections = [
        ("1 enums", spelled(sources, r"^\s*(pub )?enum ")),
        ("1 refusals and kinds as numbers", spelled(sources, r"\b(error|kind|list|number|lead): u(8|64)\b|Refused\(u8\)|\b(judge|[a-z_]*_error|error|deliver)\(.*-> u8")),
        ("1 flags in structs", spelled(sources, r"^\s+(pub )?[a-z_0-9]+: bool,$")),
        ("1 constants that are numbers of cases", spelled(sources, r"^\s*(pub )?const [A-Z_]+: u(8|64) =")),
        ("2 functions of one shape", twins(sources)),
        ("2 names that stand more than once", repeated_names(sources)),
        ("2 names with a width", spelled(sources, r"fn [a-z_]*(16|32|64)[a-z_]*\(")),
        ("3 while and loop", spelled(sources, r"^\s*('[a-z]+: )?(while|loop)\b")),
        ("3 for and iterator chains", spelled(sources, r"^\s*('[a-z]+: )?for |\.iter\(\)|\.iter_mut\(\)")),
        ("4 bytes of numbers by hand", spelled(sources, r"/ 256\b|\* 256\b|% 256\b|65536 \*|16777216 \*|256 \* ")),
        ("4 functions for equality, copying, conversion, least, printing",
         spelled(sources, r"fn (is_same|is_same_from|copy[a-z_]*|clear|least|last_end|block_size|flag|flag_bits|flag_bytes|int_of|int_bits|extend|wide|magnitude"
                 r"|type_byte|bytes32|bytes64|join16|join32|join64|row_bytes|digit|put_hex|put_digits|put_decimal|digit_count|large_count|put_byte|counted)\(")),
        ("4 derives", spelled(sources, r"#\[derive\(")),
        ("5 facts in the requires of three or more functions of a crate", repeated_facts(sources)),
        ("5 and 6 parameters that travel together in three or more functions of a crate", travelling(sources)),
        ("7 flags that choose a step", spelled(sources, r"fn .*\b(string|first|none): bool")),
        ("7 closures, function pointers and dyn", spelled(sources, r"\bdyn\b|\bfn\(|\bFn(Once|Mut)?\(|\|[a-z_, ]*\| ")),
        ("8 files of answers", answers),
        ("8 lines of proofs", [f"{sum(text.count(chr(10)) for _, text in proofs)} lines"]),
    ]
    for title, places in sections:
        places = list(places)
        print(f"{title}: {places[0] if title.endswith('lines of proofs') else len(places)}")
        if "-v" in sys.argv:
            for place in places:
                print(f"    {place}")


main()
