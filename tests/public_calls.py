"""Reads files of code: their functions, and which of them other crates can call.

A call is public where another crate can make it: a function or a method that a library hands on, or a method of a public trait
by one of its types. It may give up where it answers a `Result`, or takes an allocator, a vector that may grow, or the leave to
use files or a machine, each of which allocates.
"""
import collections
import os
import re

from definitions import after_block, exports_of, files_below, head_end, is_public, text_of, tokens_of

# What a call that may give up has in its head.
MAY_GIVE_UP = {"Result", "Global", "AllocGlobal", "Files", "Machine"}
DEFINED = re.compile(r"(?m)^(?:pub(?:\(\w+\))? )?(?:struct|enum) (\w+)")

# A function: its owner is the type that it is a method of; its head and body are the words of its code.
Function = collections.namedtuple("Function", "name owner trait is_public is_test head body")
Call = collections.namedtuple("Call", "crate owner name")


def name_of(call):
    return "::".join(it for it in call if it)


def code_of(tokens):
    """Returns the words of code, without contracts and texts."""
    return [it.text for it in tokens if it.kind == "Code"]


def bare(words):
    """Returns the words that don't stand in angle brackets."""
    kept, depth = [], 0
    for before, word in zip(["", *words], words):
        depth += word == "<"
        kept += [word] if depth == 0 else []
        depth -= word == ">" and before != "-"
    return kept


def owner_of(header):
    """Returns the type that a block of code is of, and its trait; both are empty where the block is no `impl` and no trait."""
    words = [it for it in bare(header) if it.isidentifier()]
    if "trait" in words:
        name = words[words.index("trait") + 1]
        return name, name
    if "impl" not in words:
        return "", ""
    words = words[words.index("impl") + 1 :]
    if "for" in words:
        at = words.index("for")
        return words[at + 1], words[at - 1]
    return words[0], ""


def functions_of(tokens):
    """Returns the functions of a file. A test is a function `#[test]`, or `main`."""
    found, owners, header, at = [], [("", "")], [], 0
    while at < len(tokens):
        _, kind, text = tokens[at]
        if (kind, text) == ("Code", "fn") and tokens[at + 1].text != "(":
            end = head_end(tokens, at)
            after = after_block(tokens, end) if tokens[end].text == "{" else end + 1
            head, body = code_of(tokens[at:end]), code_of(tokens[end:after])
            is_test = header[:4] == ["#", "[", "test", "]"] or head[1] == "main"
            found.append(Function(head[1], *owners[-1], is_public(tokens, at), is_test, head, body))
            at, header = after, []
            continue
        if kind == "Code" and text in ("{", "}", ";"):
            if text == "{":
                owners.append(owner_of(header))
            elif text == "}":
                owners.pop()
            header = []
        elif kind == "Code":
            header.append(text)
        at += 1
    return found


def may_give_up(head):
    return bool(MAY_GIVE_UP & set(head)) or "& mut Vec" in " ".join(head)


def result_of(head):
    """Returns the words of a function's result."""
    arrows = [at for at, pair in enumerate(zip(head, head[1:])) if pair == ("-", ">")]
    return head[arrows[-1] :] if arrows else []


def public_functions(crates):
    """Yields each function that other crates can call, with its crate. A trait's method without a body is none."""
    exports = {crate: exports_of(crate, files_below(crate, "src", ".rt")) for crate in crates}
    traits = {name for _, names in exports.values() for name in names}
    for crate, (modules, names) in exports.items():
        files = files_below(crate, "src", ".rt")
        hidden = {it for file in files for it in DEFINED.findall(text_of(file))} - names
        for file, tokens in zip(files, tokens_of(files)):
            is_open = os.path.basename(file).removesuffix(".rt") in modules
            for it in functions_of(tokens):
                is_seen = it.trait in traits if it.trait else it.is_public and (it.owner or is_open or it.name in names)
                if is_seen and it.owner not in hidden and it.body != [";"]:
                    yield crate, it
