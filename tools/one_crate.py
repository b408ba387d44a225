#!/usr/bin/env python3
"""Makes of a copy of the sources what an unproved build reads: one crate, of code alone.

usage: one_crate.py COPY PROGRAM [serving]

With `serving` it is what serves alone, without replays and audits, and other words are told how the command is used: a fifth of the code
less, and a tenth of the time, for who waits to see it serve.

Each crate that the program's code names, also through others, becomes a module of that name in the program's crate: what others write
`name::Item` is then `crate::name::Item`, and what it writes itself `crate::part` is `crate::name::part`. Definitions, proofs, tests and the
attributes that say how something is proved are left out. Each line keeps its number.

A library's generic function is compiled anew for each crate that drops a value by it, so one crate is a fifth less to compile than a hundred;
and `rt` looks at a crate of crates.txt on every way that leads to it, of which there are millions with the crates of laws.
"""
import os
import re
import shutil
import sys

# The program's modules that only words run which serve nobody. With `serving`, the first has this text, and the others are left out.
ENDING = ("ending", "audited", "explained")
SERVING = """\
use crate::told::{USAGE, tell};
use crate::words::NoWords;
use outside::{Sink, Source};
use std::alloc::Global;

/// Answers the exit status.
pub fn run_ending<S: Source, K: Sink, E: Sink>(
    _alloc: Global,
    _words: &[String],
    _input: &mut S,
    _output: &mut K,
    errors: &mut E,
) -> u8 {
    tell(errors, USAGE);
    2
}

/// Tells why the words of the command line can't be had, and answers the exit status.
pub fn tell_no_words<E: Sink>(why: NoWords, errors: &mut E) -> u8 {
    match why {
        NoWords::NotText => {
            tell(errors, USAGE);
            2
        }
        NoWords::NoMemory => {
            tell(errors, b"no memory\\n");
            5
        }
    }
}
"""
PROVED_BY = re.compile(r"#!?\[tactic\([^\]]*\)\]")
TESTS = re.compile(r"#\[cfg\(test\)\]\s*mod \w+;")


def read_lines(copy):
    """Returns the crates on each line of crates.txt, by the line's crate."""
    rows = {}
    with open(f"{copy}/crates.txt", encoding="utf-8") as lines:
        for line in lines:
            head, colon, uses = line.partition("#")[0].partition(":")
            if colon:
                rows[head.strip()] = uses.split()
    return rows


def code_of(folder):
    """Returns the text of each file of a crate's code, without its tests, by its path."""
    texts = {}
    for at, rooms, names in os.walk(f"{folder}/src"):
        if "tests" in rooms:
            rooms.remove("tests")
        for name in names:
            path = os.path.relpath(f"{at}/{name}", f"{folder}/src")
            if path != "tests.rt":
                with open(f"{at}/{name}", encoding="utf-8") as file:
                    texts[path] = file.read()
    return texts


def is_named(crate, texts):
    """Whether the code names the crate, as in `use crate::Name`, `use crate as name` and `use crate;`."""
    return any(re.search(rf"(?<![\w.]){crate}(::| as |;)", text) for text in texts.values())


def reached(rows, code, program):
    """Returns the program and the crates that its code and theirs name."""
    found, left = {program}, [program]
    while left:
        name = left.pop()
        for used in rows[name]:
            if used in rows and used not in found and is_named(used, code[name]):
                found.add(used)
                left.append(used)
    return found


def blank(found):
    """Returns as many ends of lines as the match had."""
    return "\n" * found[0].count("\n")


def moved(text, own, names):
    """Returns the text of a file as it stands in the one crate: own is the path there of what its own crate was."""
    others = "|".join(sorted(names, key=len, reverse=True))
    text = TESTS.sub(blank, text)
    text = re.sub(r"(?<![\w:])crate::", f"{own}::", text)
    if not names:
        return text
    text = re.sub(rf"(?<![\w:.])({others})(?=::)", r"crate::\1", text)
    return re.sub(rf"^(\s*(?:pub |pub\(crate\) )?use )({others})(?=;| as )", r"\1crate::\2", text, flags=re.M)


def serving(code):
    """Returns the program's code without what only words run that serve nobody."""
    first, *others = ENDING
    code = {path: text for path, text in code.items() if path.removesuffix(".rt") not in others}
    if f"{first}.rt" in code:
        code[f"{first}.rt"] = SERVING
        code["main.rt"] = re.sub(rf"^mod ({'|'.join(others)});", "", code["main.rt"], flags=re.M)
    return code


def write(path, text):
    os.makedirs(os.path.dirname(path), exist_ok=True)
    with open(path, "w", encoding="utf-8") as file:
        file.write(text)


def main(words):
    if len(words) not in (2, 3) or words[2:] not in ([], ["serving"]):
        print(__doc__, file=sys.stderr)
        return 2
    copy, program = words[:2]
    rows = read_lines(copy)
    code = {name: code_of(f"{copy}/crates/{name}") for name in rows}
    if words[2:]:
        code[program] = serving(code[program])
    parts = sorted(reached(rows, code, program) - {program})
    shutil.rmtree(f"{copy}/crates")
    to = f"{copy}/crates/{program}/src"
    for path, text in code[program].items():
        modules = "".join(f"mod {name};\n" for name in parts) if path == "main.rt" else ""
        write(f"{to}/{path}", moved(text, "crate", parts) + modules)
    for name in parts:
        for path, text in code[name].items():
            text = PROVED_BY.sub(blank, text)
            write(f"{to}/{name}.rt" if path == "lib.rt" else f"{to}/{name}/{path}", moved(text, f"crate::{name}", parts))
    libraries = sorted({it for name in [program, *parts] for it in rows[name] if it not in rows and is_named(it, code[name])})
    write(f"{copy}/crates.txt", f"{program}: {' '.join(libraries)}\n")
    return 0


if __name__ == "__main__":
    sys.exit(main(sys.argv[1:]))
