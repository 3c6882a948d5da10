#!/usr/bin/env python3
"""docs/DEFINITIONS.md explains each word that a public contract cites.

A word is a name that a file of code imports from a specs file of this repository. It is cited where it stands in a clause of
a function that other crates can call or of a function of a public trait, in a promise of a public trait, in an invariant of a
public struct, or in the view and invariant of a public type. It is explained where a table has it between backticks in its
first column, below a heading that names the specs file that defines it, or that file's folder or crate. In turn each word of a
first column has to be defined in a file that its heading names. And no clause may be longer than can be read aloud.

usage: tests/definitions.py            prints each word that isn't explained, each that isn't defined, and each clause that is too long
       tests/definitions.py --missing  prints the words that aren't explained, by the file that defines them
"""
import collections
import glob
import os
import re
import subprocess
import sys

TOP = os.path.dirname(os.path.dirname(os.path.abspath(__file__)))
PAGES = "docs/DEFINITIONS*.md"
TOKEN = re.compile(r'(\d+) \d+ \d+ (\w+) "(.*)"')
IMPORT = re.compile(r"Rattle\.(ts_\w+)\.specs\.([\w.]+?)(?:\.\{(.*)\}|\.?as(\w+))")
# What a statement, a record and a field begin with.
STATED = re.compile(r"^\s*(?:abbrev\s+)?(?:pub\s+)?(?:abbrev\s+|data\s+)?([^\s:(){}]+)\s*:\s")
RECORD = re.compile(r"^(?:pub\s+)?(?:record|data)\s+(?:pub\s+)?([^\s:(){}]+)")
FIELD = re.compile(r"^\s+(?:pub\s+)?([^\s:(){}=]+)\s*:\s")
# A promise of a trait, which has a name too.
PROMISE = re.compile(r"^\s*(?:pub )?ghost (\w+)\s*:", re.MULTILINE)
TYPE = re.compile(r"^\s*pub (?:struct|enum|trait) (\w+)", re.MULTILINE)
# Where a clause begins, and how many characters it may have between its braces.
CLAUSE = re.compile(r"(?:ensures|requires)\b[^{}]*\{")
LONGEST_CLAUSE = 160
PLACE = re.compile(r"\bts_[\w*]+(?:/specs/(?:[\w{},]+\.antt)?)?")

Token = collections.namedtuple("Token", "line kind text")
Citation = collections.namedtuple("Citation", "file word place owner")
Row = collections.namedtuple("Row", "place word files")


def library_crates():
    """Returns the names of the library crates that crates.txt has."""
    with open("crates.txt", encoding="utf-8") as it:
        names = [line.split()[0].rstrip(":") for line in it if line.strip()]
    return [it for it in names if it.startswith("ts_")]


def files_below(crate, part, ending):
    return sorted(glob.glob(f"crates/{crate}/{part}/**/*{ending}", recursive=True))


def tokens_of(files):
    """Returns the tokens of each file of code; comments are none."""
    ran = subprocess.run(["rattle", "fmt", "--tokens", *files], capture_output=True, check=True, text=True)
    rows = re.split(r"(?m)^file \d+\n", ran.stdout)[1:]
    return [[Token(int(line), kind, text) for line, kind, text in TOKEN.findall(it)] for it in rows]


def without_imports(tokens):
    """Returns what a file imports from specs of this repository, by name the defining files, and all its other tokens."""
    imported, kept, at = collections.defaultdict(set), [], 0
    while at < len(tokens):
        if [it.text for it in tokens[at : at + 2]] != ["ghost", "use"]:
            kept.append(tokens[at])
            at += 1
            continue
        end = at
        while tokens[end][1:] != ("Code", ";"):
            end += 1
        found = IMPORT.fullmatch("".join(it.text for it in tokens[at + 2 : end]))
        if found and not found[2].startswith(("declared", "contracts")):
            file = f"crates/{found[1]}/specs/{found[2].replace('.', '/')}.antt"
            for name in found[3].split(",") if found[3] is not None else [f"{found[4]}."]:
                imported[name].add(file)
        at = end + 1
    return imported, kept


def after_block(tokens, at):
    """Returns the place after the brace that closes the one at a place."""
    depth = 0
    while at < len(tokens):
        depth += (tokens[at][1:] == ("Code", "{")) - (tokens[at][1:] == ("Code", "}"))
        at += 1
        if depth == 0:
            break
    return at


def head_end(tokens, at):
    """Returns the place of the body of a function, or of the semicolon in its place."""
    depth = 0
    while at < len(tokens):
        _, kind, text = tokens[at]
        if kind == "Code":
            depth += (text in ("(", "[")) - (text in (")", "]"))
            if depth == 0 and text in ("{", ";"):
                break
        at += 1
    return at


def label_of(header):
    """Returns what a block of code is: its keyword, and the type that it is of, where it is a public one's."""
    words = [it.text for it in header if it.kind == "Code"]
    for keyword in ("trait", "struct", "enum"):
        if keyword in words and "pub" in words[: words.index(keyword)] and words[words.index("pub") + 1] != "(":
            return keyword, words[words.index(keyword) + 1]
    if "impl" in words and "Model" in words and "for" in words:
        return "view", words[words.index("for") + 1]
    if words[:1] == ["impl"] and "for" not in words:
        return "impl", type_of(words[1:])
    return "other", ""


def type_of(words):
    """Returns the type that an `impl` is of: the first word after its parameters, which stand in angle brackets."""
    depth = 0
    for before, word in zip(["", *words], words):
        depth += (word == "<") - (word == ">" and before != "-")
        if depth == 0 and word.isidentifier():
            return word
    return ""


def is_public(tokens, at):
    """Returns whether the function whose `fn` is at a place is `pub`."""
    while at > 0 and tokens[at - 1].text in ("const", "unsafe"):
        at -= 1
    return at > 0 and tokens[at - 1][1:] == ("Code", "pub")


def contracts_of(tokens, is_seen):
    """Yields what has a public contract, each with its tokens. It is_seen by its own name, or by that of its type."""
    stack, header, at = [("other", "")], [], 0
    while at < len(tokens):
        token = tokens[at]
        keyword, owner = stack[-1]
        if token[1:] == ("Code", "fn") and tokens[at + 1].text != "(":
            end = head_end(tokens, at)
            if (keyword == "trait" or is_public(tokens, at)) and is_seen(owner or tokens[at + 1].text):
                yield tokens[at + 1].text, [it for it in tokens[at:end] if it.kind == "Antt"]
            at = after_block(tokens, end) if end < len(tokens) and tokens[end].text == "{" else end + 1
            header = []
            continue
        if token.kind == "Antt" and keyword in ("trait", "struct", "enum", "view") and is_seen(owner):
            yield owner, [token]
        if token.kind == "Code" and token.text in ("{", "}", ";"):
            if token.text == "{":
                stack.append(label_of(header))
            elif token.text == "}":
                stack.pop()
            header = []
        else:
            header.append(token)
        at += 1


def parts_of(word):
    """Returns the tokens that a name is written with: an operator has one between its operands."""
    return [it for it in word.split("◌") if it] if "◌" in word else [word]


def cited_in(text, imported):
    """Yields the names that a token of a contract cites, each with the files that define it."""
    for word, files in imported.items():
        if word.endswith(".") and text.startswith(word):
            yield text[len(word) :].split(".")[0], files
        elif text in parts_of(word) or text.startswith(f"{word}."):
            yield word, files


def exports_of(crate, files):
    """Returns the public modules of a crate, and the names that can be seen from other crates: those it passes on, and the
    types of its public modules."""
    lib = text_of(f"crates/{crate}/src/lib.rt")
    modules = {*re.findall(r"(?m)^pub mod (\w+);", lib), "lib"}
    names = {it for used in re.findall(r"(?m)^pub use ([^;]*);", lib) for it in re.findall(r"\w+", used)}
    for file in files:
        if os.path.relpath(file, f"crates/{crate}/src").removesuffix(".rt").split("/")[0] in modules:
            names.update(TYPE.findall(text_of(file)))
    return modules, names


def citations(crates):
    """Returns each word that a public contract cites, with a place that cites it."""
    found = {}
    for crate in crates:
        files = files_below(crate, "src", ".rt")
        modules, names = exports_of(crate, files)
        for file, tokens in zip(files, tokens_of(files) if files else []):
            imported, rest = without_imports(tokens)
            module = os.path.relpath(file, f"crates/{crate}/src").removesuffix(".rt").split("/")[0]
            is_seen = lambda it, is_open=module in modules: is_open or it in names
            for owner, contract in contracts_of(rest, is_seen):
                for token in contract:
                    for word, homes in cited_in(token.text, imported):
                        for home in homes:
                            found.setdefault((home, word), Citation(home, word, f"{file}:{token.line}", owner))
    return [found[it] for it in sorted(found)]


def text_of(file):
    with open(file, encoding="utf-8") as it:
        return it.read()


def defined_words(crates):
    """Returns the words that each specs file defines, and with them the types and the promises of its crate's code."""
    defined = {}
    for crate in crates:
        code = [text_of(it) for it in files_below(crate, "src", ".rt")]
        types = {it for text in code for it in TYPE.findall(text) + PROMISE.findall(text)}
        for file in files_below(crate, "specs", ".antt"):
            found = (regex.match(line) for line in text_of(file).splitlines() for regex in (RECORD, STATED, FIELD))
            defined[file] = {it[1] for it in found if it} | types
    return defined


def places_of(heading):
    """Returns the specs files that a heading names: a file, several in braces, those of a folder, or all of a crate."""
    files, missing = [], []
    for place in PLACE.findall(" ".join(re.findall(r"`([^`]*)`", heading))):
        folder, _, name = f"crates/{place}".partition("/specs/")
        inner = re.fullmatch(r"\{(.*)\}\.antt", name)
        names = [f"{it}.antt" for it in inner[1].split(",")] if inner else [name or "**/*.antt"]
        for it in names:
            met = sorted(glob.glob(f"{folder}/specs/{it}", recursive=True))
            files += met
            missing += [] if met else [f"{folder}/specs/{it}"]
    return files, missing


def read_page(page):
    """Returns the words in first columns, each with the specs files of its section, and what is wrong with headings."""
    rows, faults, files = [], [], []
    for number, line in enumerate(text_of(page).splitlines(), 1):
        if line.startswith("#"):
            files, missing = places_of(line)
            faults += [f"{page}:{number}: the heading names {it}, and there is no such file" for it in missing]
        elif line.startswith("|"):
            cell = line.split("|")[1]
            rows += [Row(f"{page}:{number}", it.split()[0], files) for it in re.findall(r"`([^`]+)`", cell)]
    return rows, faults


def faults_of_rows(rows, defined):
    """Returns the rows of words that no file of their heading defines, or no file at all where it names none."""
    found = []
    for row in rows:
        if not any(row.word in defined.get(it, ()) for it in row.files or defined):
            of = " ".join(os.path.relpath(it, "crates") for it in row.files[:3]) or "any specs file"
            found.append(f"{row.place}: {row.word} is defined by no file of its heading ({of})")
    return found


def faults_of_words(cited, rows):
    """Returns the cited words that no row below a heading of their file explains."""
    explained = {(file, row.word) for row in rows for file in row.files}
    return [it for it in cited if (it.file, it.word) not in explained]


def clauses_of(text):
    """Yields each clause of a file of code, with the number of its first line: what stands between its braces, on one line."""
    for found in CLAUSE.finditer(text):
        if text[text.rfind("\n", 0, found.start()) + 1 : found.start()].strip():
            continue
        depth, at = 1, found.end()
        while depth:
            depth += {"{": 1, "}": -1}.get(text[at], 0)
            at += 1
        yield text.count("\n", 0, found.start()) + 1, " ".join(text[found.end() : at - 1].split())


def faults_of_clauses(crates):
    """Returns how many clauses the crates have, and those that are too long."""
    count, found = 0, []
    for file in (it for crate in crates for it in files_below(crate, "src", ".rt")):
        for line, clause in clauses_of(text_of(file)):
            count += 1
            if len(clause) > LONGEST_CLAUSE:
                found.append(f"{file}:{line}: the clause has {len(clause)} characters, more than {LONGEST_CLAUSE}")
    return count, found


def print_missing(missing):
    """Prints the words that aren't explained, a line for each file that defines some."""
    words = collections.defaultdict(list)
    for it in missing:
        words[it.file].append(it.word)
    for file, names in words.items():
        print(f"{os.path.relpath(file, 'crates')}: {' '.join(names)}")


def main(words):
    if words not in ([], ["--missing"]):
        print(__doc__, file=sys.stderr)
        return 2
    os.chdir(TOP)
    crates = library_crates()
    pages = [read_page(it) for it in sorted(glob.glob(PAGES))]
    rows = [row for found, _ in pages for row in found]
    cited = citations(crates)
    missing = faults_of_words(cited, rows)
    if words:
        print_missing(missing)
        return 1 if missing else 0
    clauses, long_ones = faults_of_clauses(crates)
    faults = [fault for _, found in pages for fault in found] + faults_of_rows(rows, defined_words(crates)) + long_ones
    for it in missing:
        print(f"{it.place}: {it.owner} cites {it.word} of {os.path.relpath(it.file, 'crates')}, which isn't explained")
    for it in faults:
        print(it)
    failed = len(missing) + len(faults)
    print(f"{len(cited) + len(rows) + clauses - failed} passed, {failed} failed")
    return 1 if failed else 0


if __name__ == "__main__":
    sys.exit(main(sys.argv[1:]))
