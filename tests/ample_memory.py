#!/usr/bin/env python3
"""Each public call that may give up is made by a test in which memory is ample.

No contract here says that a call succeeds: one that takes memory may answer at any time that there is none, so a body that
always gives up would be proved. This looks for a test of each such call (`public_calls.py` says which these are; laws are left
out), by its crate and its type and not by its name alone.

A test is a function `#[test]` of a crate of tests, or `main` of a program that the gate runs, with all that it reaches in its
own crate and in `fixtures`. It makes the call of a function where the file imports it, and that of a method where it says `Type::name(`, or where
it says `.name(` in a file that imports from the method's crate, and nothing else has a method of that name. For a name that
others have, too, SHARED says which test it is: that has to make a call of this name, and to name the type or to make a value of
it. What only the program calls stands in SCRIPTS, with the case of a script that fails where the call gives up.

It can't show that a test compares what the call answers, nor that SHARED and SCRIPTS name the right test: whoever writes a test
or a line there sees to that.

usage: tests/ample_memory.py         prints each call that no test makes
       tests/ample_memory.py --list  prints each call, with a test that makes it
"""
import collections
import os
import sys

TOP = os.path.dirname(os.path.dirname(os.path.abspath(__file__)))
sys.path.insert(0, f"{TOP}/tests")

from definitions import files_below, library_crates, text_of, tokens_of
from public_calls import Call, code_of, functions_of, may_give_up, name_of, public_functions, result_of

LAWS = ("ts_laws", "ts_text_laws")
TESTING = ("library_calls", "text_calls", "tree_calls", "cases", "benchmarks")
# The crate of what they share.
FIXTURES = "fixtures"
# Methods that types of the standard library have, too.
OF_STD = set("fill finish join lock next parse push read remove rename replace split take write".split())

# FILE TEST: CALLS, for methods whose name others have, too. The file is one below crates/, without `src` and `.rt`.
SHARED = """
text_calls/swaps each_stop_is_recovered_from: ts_swap::State::copy
text_calls/names calls_with_ample_memory: ts_name::Path::copy ts_name::Path::join
text_calls/texts a_source_gives_its_bytes: ts_text::Counted::read
text_calls/texts a_sink_takes_bytes: ts_text::Counted::write
text_calls/texts gives_lines_in_any_pieces: ts_text::Lines::next
text_calls/holds rules_are_taken_line_by_line: ts_hold::RuleReader::line
text_calls/plans stops_at_the_limit_of_entries: ts_plan::PlanReader::line ts_plan::PlanReader::finish
text_calls/plans plans_past_the_limit_of_predecessors_dont_fit: ts_model::Predecessors::push
text_calls/swaps each_call_does_its_part: ts_swap::MemPlaces::present ts_swap::MemPlaces::write
text_calls/swaps each_call_does_its_part: ts_swap::MemPlaces::rename ts_swap::MemPlaces::remove
library_calls/tables copies_files: ts_table::Items::copy_file ts_table::Stamp::copy_file ts_table::u8::copy_file
library_calls/tables looks_into_parts: ts_table::SubTable::copy
library_calls/tables looks_up: ts_table::Table::copy
library_calls/tables looks_below: ts_table::Table::sub_table
library_calls/tables replaces: ts_table::Table::replace ts_table::Table::make_dir ts_table::Table::splice
library_calls/tables splits_and_joins: ts_table::Table::split
library_calls/tables takes_rows_in_order: ts_table::Table::push
library_calls/packing packs_what_grows: ts_table::Table::pack_last ts_print::Print::pack_last
library_calls/packing packs_what_grows: ts_table::Table::reserve ts_print::Print::reserve
library_calls/packing packed_paths_are_used_as_others: ts_name::Packing::add
library_calls/folders lists_and_reads_in_memory: ts_folder::MemFolder::list ts_folder::MemFolder::is_dir ts_folder::Folder::read
library_calls/folders fails_where_told: ts_folder::FaultyFolder::list ts_folder::FaultyFolder::is_dir
library_calls/folders lists_and_reads_on_a_disk: ts_folder::DiskFolder::list ts_folder::DiskFolder::is_dir
library_calls/folders opens_and_fills_in_memory: ts_folder::MemFolder::open_file ts_folder::MemFolder::fill
library_calls/folders opens_and_fills_where_nothing_fails: ts_folder::FaultyFolder::open_file ts_folder::FaultyFolder::fill
library_calls/folders opens_and_fills_on_a_disk: ts_folder::DiskFolder::open_file ts_folder::DiskFolder::fill
library_calls/sites puts_staged_bytes_in_place: ts_site::MemSite::commit
library_calls/sites fails_when_told: ts_site::FaultySite::commit
library_calls/sites commits_to_a_site_in_a_box: ts_site::Box::commit
library_calls/bundles takes_lines: ts_bundle::BundleReader::line ts_bundle::BundleReader::finish
tree_calls/parts looks_up: ts_tree::Tree::copy
tree_calls/parts gives_tables: ts_tree::Tree::sub_table
tree_calls/parts makes_parts: ts_tree::SubTree::copy
tree_calls/parts replaces: ts_tree::Tree::replace ts_tree::Tree::splice
tree_calls/parts splits_and_joins: ts_tree::Tree::split
tree_calls/trees begins_anew_after_a_refused_line: ts_tree::TreeReader::line ts_tree::TreeReader::finish
tree_calls/prints begins_anew_after_a_refused_line: ts_print::PrintReader::line ts_print::PrintReader::finish
tree_calls/stamped grows_at_the_end: ts_print::Print::push
tree_calls/stamped empties_a_directory: ts_print::Print::copy ts_print::Print::make_dir
tree_calls/stamped looks_below_and_lends_parts: ts_print::Print::sub_table
tree_calls/stamped adds_to_a_table: ts_print::Print::add
tree_calls/stamped puts_parts_in_place: ts_print::Print::replace ts_print::Print::splice
tree_calls/staging counts_bytes_that_were_seen: ts_stage::Told::add
tree_calls/staging stamps_what_is_read_back_in_parts: ts_stage::Reading::add
tree_calls/staging stores_pieces_in_memory: ts_stage::MemStage::store
tree_calls/stages a_commit_takes_what_was_stored: ts_disk::DiskStage::store
tree_calls/disks each_call_of_a_swap_does_its_part: ts_disk::DiskPlaces::present ts_disk::DiskPlaces::write
tree_calls/disks each_call_of_a_swap_does_its_part: ts_disk::DiskPlaces::rename ts_disk::DiskPlaces::remove
cases/main main: ts_board::FirstWords::count ts_board::Opening::open ts_board::Board::split ts_board::Held::commit ts_board::Closed::archive ts_board::Closed::into_archive ts_exec::Outcome::archive
"""

# SCRIPT: WORDS: CALLS, for what the program alone makes. The words are a line's beginning in that script of tests/, which the
# gate runs, and the case fails where one of the calls gives up.
SCRIPTS = """
commands.sh: expect 'first sync' 0: ts_command::command ts_perform::perform ts_perform::HostRuntime::folder
commands.sh: expect 'first sync' 0: ts_perform::HostRuntime::way ts_perform::HostRuntime::site ts_perform::HostRuntime::lock
commands.sh: expect 'first sync' 0: ts_exec::run_staging ts_perform::HostRuntime::stage
commands.sh: expect 'show' 0: ts_perform::HostRuntime::open
commands.sh: expect 'first sync' 0: ts_perform::HostRuntime::take_part ts_perform::HostRuntime::flush_above
commands.sh: expect 'first sync' 0: ts_disk::Lock::is_in_place ts_disk::Lock::take_part ts_disk::check_leftovers
commands.sh: expect 'first sync' 0: ts_disk::save_plan ts_disk::DiskSite::new ts_disk::DiskSite::commit ts_disk::flush_above
commands.sh: expect 'a conflict settled by hand' 0: ts_disk::flush_paths ts_perform::HostRuntime::flush_paths
commands.sh: alike 'first sync': ts_disk::Lock::release ts_disk::clear_leftovers ts_disk::remove_plan
commands.sh: holds_true 'the archive file': ts_perform::HostRuntime::claim ts_perform::HostRuntime::write_archive
commands.sh: holds_true 'the archive file': ts_disk::claim_archive ts_disk::ArchivePlace::write
checkpoints.sh: holds_true 'a checkpoint after each of three actions': ts_perform::HostRuntime::flush_alone ts_perform::HostRuntime::write_checkpoint
checkpoints.sh: holds_true 'a checkpoint after each of three actions': ts_disk::flush_above_alone ts_disk::ArchivePlace::write_checkpoint
preview.sh: expect 'a first look' 0: ts_preview::outlooks ts_preview::write
explain.sh: told 'no archive to show' 3: ts_explain::write_fault ts_explain::push_sentence ts_explain::push_pieces
explain.sh: told 'no archive to show' 3: ts_preview::push_shown ts_explain::push_fault ts_explain::write_explained
explain.sh: expect 'such a path, explained' 3: ts_explain::write_sentence
explain.sh: skips 'a file that was changed in both': ts_explain::push_skip
explain.sh: looks 'a plan is left in the second folder': ts_disk::awaits_recovery ts_perform::HostRuntime::awaits_recovery
explain.sh: looks 'a plan is left in the second folder': ts_explain::push_pending
guards.sh: goes "$name, without it": ts_perform::HostRuntime::knows_archive
guards.sh: goes 'the same plan in both': ts_perform::HostRuntime::stopped_alike
special.sh: expect 'links in three folders' 1: ts_perform::HostRuntime::specials ts_special::search ts_special::union
special.sh: expect 'links in three folders' 1: ts_special::HoldingFolder::new ts_special::HoldingFolder::list
special.sh: expect 'links in three folders' 1: ts_special::HoldingFolder::open_file ts_special::HoldingFolder::fill
special.sh: expect 'links in three folders' 1: ts_special::HoldingFolder::is_dir
special.sh: expect 'names that are not UTF-8' 1: ts_special::stand_in
special.sh: refused 'links in three folders, without the option' '10 /both': ts_special::Specials::none
commands.sh: expect 'first sync' 0: ts_progress::CountingFolder::list ts_progress::CountingFolder::open_file
commands.sh: expect 'first sync' 0: ts_progress::CountingFolder::fill ts_progress::CountingFolder::is_dir
progress.sh: add_counts 'tests/progress.py ended early': ts_progress::Progress::new
disk_edge.sh: refused 'an archive that is none, no .twosync' 6: ts_disk::Lock::withdraw ts_disk::ArchivePlace::release
"""
File = collections.namedtuple("File", "path crates functions links")
# A test, the calls that it makes, and all words of what it reaches.
Test = collections.namedtuple("Test", "path name calls words")


def imports_of(tokens):
    """Returns the crate that each imported name is from, and the words of imports from the file's own crate and of `mod`s."""
    words, crates, links = code_of(tokens), {}, set()
    for at, word in enumerate(words):
        if word in ("use", "mod") and words[at - 1 : at] != ["ghost"]:
            used = [it for it in words[at + 1 : words.index(";", at)] if it.isidentifier()]
            if word == "mod" or used[0] == "crate":
                links.update(used)
            else:
                crates.update(dict.fromkeys(used, used[0]))
    return crates, links


def calls_in(function, crates):
    """Yields the calls that a function makes. One by `.` counts for each crate that the file imports from, and has `.` for its
    type."""
    words = function.body
    for at, word in enumerate(words[:-1]):
        if not word.isidentifier() or words[at + 1] not in ("(", ":"):
            continue
        if words[at - 1] == ".":
            yield from (Call(crate, ".", word) for crate in set(crates.values()))
        elif words[at - 1] == ":":
            start = at
            while words[start - 1] == ":":
                start -= 3
            owner = words[at - 3] if words[at - 3][0].isupper() else ""
            yield Call(crates.get(words[start], words[start]), owner, word)
        else:
            yield Call(crates.get(word, ""), "", word)


def called(files, file, function):
    """Yields the functions of its own crate and of the fixtures that a function calls by name, each with its file: those of its own
    file, or else of one that this file names, or from which it imports them, or methods."""
    for before, word, after in zip(function.body, function.body[1:], function.body[2:]):
        if after in ("(", ":") and word.isidentifier():
            own = [(file, it) for it in file.functions if it.name == word]
            yield from own or (
                (other, it)
                for other in files
                for it in other.functions
                if it.name == word and (is_named(file, other, word) or it.owner and before == ".")
            )


def is_named(file, other, word):
    """Whether a file names another one of its crate, or imports a word from the fixtures, of which the other one is."""
    if other.path.startswith(f"crates/{FIXTURES}/"):
        return file.crates.get(word) == FIXTURES
    return os.path.basename(other.path).removesuffix(".rt") in file.links


def reached(files, file, test):
    """Yields a test and the functions of its own crate and of the fixtures that it reaches, each with its file."""
    todo, seen = [(file, test)], set()
    while todo:
        file, function = todo.pop()
        if (file.path, function.name, function.owner) not in seen:
            seen.add((file.path, function.name, function.owner))
            yield file, function
            todo += called(files, file, function)


def tests_of(crate):
    """Yields the tests of a crate."""
    files = []
    paths = files_below(crate, "src", ".rt") + files_below(FIXTURES, "src", ".rt")
    for path, tokens in zip(paths, tokens_of(paths)):
        crates, links = imports_of(tokens)
        files.append(File(path, crates, functions_of(tokens), links))
    for file in files:
        for test in file.functions:
            if test.is_test:
                parts = list(reached(files, file, test))
                calls = {call for at, it in parts for call in calls_in(it, at.crates)}
                yield Test(file.path, test.name, calls, {word for _, it in parts for word in it.head + it.body})


class Library:
    """What other crates can call."""

    def __init__(self, crates):
        self.calls = []  # those that may give up
        self.owners = collections.defaultdict(set)  # whose methods have a name
        self.makers = collections.defaultdict(set)  # which functions of a crate answer a value of a type
        for crate, it in public_functions(crates):
            if it.owner:
                self.owners[it.name].add((crate, it.owner))
            for word in result_of(it.head):
                self.makers[crate, word].add(it.name)
            if may_give_up(it.head):
                self.calls.append(Call(crate, it.owner, it.name))

    def by_rule(self, call, tests):
        """Returns a test that makes a call by its type, or by a name that nothing else has."""
        is_alone = call.owner and call.name not in OF_STD and len(self.owners[call.name]) == 1
        keys = {call, Call(call.crate, ".", call.name)} if is_alone else {call}
        return next((f"{it.path}: {it.name}" for it in tests if keys & it.calls), None)

    def by_table(self, call, tests):
        """Returns the test that SHARED names for a call, if it makes the call, or the script of SCRIPTS, if it has the case."""
        for (place,), name in lines_of(SHARED):
            crate, module, test = place.replace("/", " ").split()
            for it in tests if name == name_of(call) else []:
                is_it = (it.path, it.name) == (f"crates/{crate}/src/{module}.rt", test)
                has_value = call.owner in it.words or self.makers[call.crate, call.owner] & it.words
                if is_it and has_value and Call(call.crate, ".", call.name) in it.calls:
                    return f"{it.path}: {it.name}"
        for (script, case), name in lines_of(SCRIPTS):
            if name == name_of(call) and f"step tests/{script}\n" in text_of(".ci/run"):
                if f"\n{case}" in text_of(f"tests/{script}"):
                    return f"tests/{script}: {case}"
        return None


def lines_of(table):
    """Yields what stands before each call in its line of a table, and the call."""
    for line in table.strip().splitlines():
        *place, calls = line.split(": ")
        yield from ((place, call) for call in calls.split())


def main(words):
    if words not in ([], ["--list"]):
        print(__doc__, file=sys.stderr)
        return 2
    os.chdir(TOP)
    library = Library([it for it in library_crates() if it not in LAWS])
    tests = [it for crate in TESTING for it in tests_of(crate)]
    failed = 0
    for call in library.calls:
        found = library.by_rule(call, tests) or library.by_table(call, tests)
        failed += not found
        if words or not found:
            print(f"{name_of(call)}: {found or 'no test makes this call'}")
    names = {name_of(it) for it in library.calls}
    stale = [it for _, it in [*lines_of(SHARED), *lines_of(SCRIPTS)] if it not in names]
    for it in stale:
        print(f"{it}: a table has it, and it is no public call that may give up")
    print(f"ample memory: {len(library.calls) - failed} passed, {failed + len(stale)} failed")
    return 1 if failed or stale else 0


if __name__ == "__main__":
    sys.exit(main(sys.argv[1:]))
