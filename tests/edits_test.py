#!/usr/bin/env python3
"""Tests tests/edits.py and tests/by_function.py on small repositories, with the kit's own rt but a stand-in for the prover.

What is shown: which edits are tried and which are compiled, what counts as refused, and what fails the gate. The last line is
`N passed, M failed`.
"""
import contextlib
import io
import os
import subprocess
import sys
import tempfile

sys.dont_write_bytecode = True
sys.path.insert(0, os.path.dirname(os.path.abspath(__file__)))

import by_function
import edits

RT = edits.load_rt()
# One lane, so that crates come one after the other.
os.environ["RT_JOBS"] = "1"

PAGE = """
| What is wrong | Edit | Refused by |
|---|---|---|
| Low gives seven | `low/a` | `low::m::one`, `ensures`; `two`, `some` |
| High gives seven | `high/b` | `high::m::one`, `some` |
| Nobody finds out | none: the answers are the same | a test |
"""
CODE = "fn one() {\n    1\n}\n\nfn two() {\n    2\n}\n"
EDIT = "function: {}::m::{}\nbreaks: {}\nfile: src/m.rt\nold: {}\nnew: 7\n"
FILES = {
    "crates.txt": "low:\nhigh: low\n",
    "crates/low/src/lib.rt": "mod m;\n",
    "crates/low/src/m.rt": CODE,
    "crates/high/src/lib.rt": "mod m;\n",
    "crates/high/src/m.rt": CODE,
    "tests/wrong_bodies/low/a.edit": EDIT.format("low", "one", "ensures", 1),
    "tests/wrong_bodies/high/b.edit": EDIT.format("high", "one", "some", 1),
    "tests/edits/low/c.edit": "file: src/m.rt\nold: 2\nnew: 7\n",
    "tests/edits/high/d.edit": "file: src/m.rt\nold: 2\nnew: 7\n",
    "docs/WRONG_BODIES.md": PAGE,
}
# What each of these edits changes, as it stands in a text.
CHANGES = {"a": "one() {\n    7", "b": "one() {\n    7", "c": "two() {\n    7", "d": "two() {\n    7"}


class World:
    """A repository in a folder of its own, and a prover that answers what a test wants and notes what it was asked."""

    def __init__(self, root):
        self.root, self.asked, self.said = root, [], ""
        # what the prover says of an edit, in place of the goal that it should name; what doesn't compile; what is built
        self.answers, self.broken, self.built = {}, set(), {"low", "high"}
        for name, text in FILES.items():
            self.put(name, text)
        self.git("init", "-q")
        self.commit("2026-01-01T00:00:00Z")

    def git(self, *words, at="2026-01-01T00:00:00Z"):
        who = ["-c", "user.name=test", "-c", "user.email=test@example.org"]
        when = {"GIT_AUTHOR_DATE": at, "GIT_COMMITTER_DATE": at}
        subprocess.run(["git", "-C", self.root, *who, *words], check=True, env={**os.environ, **when})

    def commit(self, at):
        self.git("add", "-A")
        self.git("commit", "-q", "--allow-empty", "-m", "one more", at=at)

    def put(self, name, text):
        os.makedirs(os.path.dirname(f"{self.root}/{name}"), exist_ok=True)
        with open(f"{self.root}/{name}", "w", encoding="utf-8") as it:
            it.write(text)

    def checked(self, crate, texts, flags, kept):
        """Takes the place of rt's check: what doesn't compile comes to no verdict, each edit is asked for, and refused as it says."""
        names = [it for it in sorted(CHANGES) if CHANGES[it] in texts.get("src/m.rt", "") and self.has(crate, it)]
        is_compiled = flags[-2:] == ["--only", ""]
        self.asked.append(f"{crate.name} {'compile' if is_compiled else 'prove'} {''.join(names)}")
        if self.broken & {*names}:
            return subprocess.CompletedProcess([], 2, stdout="src/m.rt:2:5: error[E1]: no\n")
        goals = {"a": at(1, "returns"), "b": at(1, "returns-clause-some"), "c": at(5, "returns"), "d": at(5, "returns")}
        said = [] if is_compiled else [self.answers.get(it, goals[it]) for it in names]
        return subprocess.CompletedProcess([], 1 if any(said) else 0, stdout="\n".join([*said, "only=1 proved=0\n"]))

    def has(self, crate, name):
        return any(os.path.isfile(f"{self.root}/tests/{it}/{crate.name}/{name}.edit") for it in ("wrong_bodies", "edits"))

    def run(self, *words, is_after_ci=True):
        """Runs what the gate does, or tries the edits of some crates, and returns how many passed and failed."""
        RT.rtlib.listed.cache_clear()
        for it in RT.rtlib.crates_below(self.root):
            if it.name in self.built:
                os.makedirs(it.rlib, exist_ok=True)
        self.asked, said, was, RT.checked = [], io.StringIO(), RT.checked, self.checked
        try:
            with contextlib.redirect_stdout(said):
                repository = edits.Repository(RT, self.root)
                some = [it for it in repository.edits if it.crate in words]
                counts = edits.prove(repository, some, is_after_ci) if words else edits.gate(repository, is_after_ci)
        finally:
            RT.checked = was
        self.said = said.getvalue()
        return counts


def same(found, wanted):
    if found != wanted:
        raise AssertionError(f"{found!r}, and not {wanted!r}")


def each_wrong_body_is_tried_on_each_run(world):
    wanted = ["high compile d", "high prove b", "low compile c", "low prove a"]
    for _ in range(2):
        same((world.run(), sorted(world.asked)), ((4, 0), wanted))
    # what no commit of the last day changed isn't compiled
    world.commit("2026-01-02T00:00:01Z")
    same((world.run(), sorted(world.asked)), ((4, 0), ["high prove b", "low prove a"]))
    world.put("crates/high/src/m.rt", f"{CODE}// more\n")
    same((world.run(), sorted(world.asked)), ((4, 0), ["high compile d", "high prove b", "low prove a"]))
    world.commit("2026-01-02T00:00:02Z")
    world.commit("2026-01-03T00:00:01Z")
    same((world.run(), sorted(world.asked)), ((4, 0), ["high compile d", "high prove b", "low prove a"]))


def by_hand_all_edits_of_a_crate_are_tried(world):
    same((world.run("low"), world.asked), ((2, 0), ["low prove ac"]))
    # what `rt ci` didn't prove is proved without the edits first
    is_built, RT.rtlib.Crate.is_built = RT.rtlib.Crate.is_built, lambda crate: True
    try:
        same((world.run("low", is_after_ci=False), world.asked), ((2, 0), ["low prove ", "low prove ac"]))
    finally:
        RT.rtlib.Crate.is_built = is_built


def what_is_not_refused_fails(world):
    for answer in ("", at(5, "returns"), "./proofs/m/one/Answers.antt:3:4: error: `returns`: module has no `x` that can be named"):
        world.answers = {"a": answer}
        same((world.run(), "FAILED: low/a\n" in world.said), ((3, 1), True))
        # alone, too, before it counts as not refused
        same([it for it in world.asked if "low prove" in it], ["low prove a"] * 2)


def what_does_not_compile_fails(world):
    world.put("crates/low/src/m.rt", f"{CODE}\nfn three() {{\n    3\n}}\n")
    world.put("tests/edits/low/e.edit", "file: src/m.rt\nold: 3\nnew: 7\n")
    CHANGES["e"] = "three() {\n    7"
    try:
        same((world.run(), [it for it in world.asked if "low compile" in it]), ((5, 0), ["low compile ce"]))
        world.broken = {"c"}
        same((world.run(), "low/c: it doesn't compile" in world.said), ((4, 1), True))
        same([it for it in world.asked if "low compile" in it], ["low compile ce", "low compile c", "low compile e"])
        # edits of one text go into different rounds
        world.put("tests/edits/low/e.edit", "file: src/m.rt\nold:     2\nnew:     7\n")
        world.broken = set()
        same((world.run(), len([it for it in world.asked if "low compile" in it])), ((5, 0), 2))
    finally:
        del CHANGES["e"]


def an_edit_that_does_not_apply_fails_untried(world):
    world.put("tests/edits/high/d.edit", "file: src/m.rt\nold: 4\nnew: 7\n")
    world.put("tests/edits/low/notes", "")
    world.put("tests/edits/nobody/a.edit", "")
    same((world.run(), sorted(world.asked)), ((3, 3), ["high prove b", "low compile c", "low prove a"]))


def the_page_has_a_line_for_each_wrong_body(world):
    row = "| High gives seven | `high/b` | `high::m::one`, `some` |\n"
    for wrong in (
        "",
        row * 2,
        row.replace("some", "none"),
        row.replace("::one", "::two"),
        row.replace("high/b", "high/c"),
        row.replace("`high/b`", "`high/b`, `high/d`"),
    ):
        world.put("docs/WRONG_BODIES.md", PAGE.replace(row, wrong))
        same((wrong, world.run()[1] > 0), (wrong, True))
    world.put("docs/WRONG_BODIES.md", PAGE)
    # the edit has to change the function that it names, and that one alone
    for text in (
        EDIT.format("high", "two", "some", 1),
        EDIT.format("high", "one", "some", 1).replace("breaks: some\n", ""),
        EDIT.format("high", "one", "some", 1) + "old: 2\nnew: 7\n",
    ):
        world.put("tests/wrong_bodies/high/b.edit", text)
        same((text, world.run()[1] > 0), (text, True))


def libraries_have_to_be_there(world):
    world.built = {"high"}
    try:
        world.run()
    except SystemExit as stop:
        same("these libraries aren't built: low:" in str(stop), True)
    else:
        raise AssertionError("nothing was missed")


def the_changed_function_is_named(_world):
    text = (
        "const A: u8 = 1;\nfn one() {\n    a\n}\nimpl<T: B> C<T> {\n    pub fn two(&self) {\n        b\n    }\n}\n"
        "impl D for C {\n    fn three() {\n        c\n    }\n}\npub(crate) fn four() {\n    let d = |x| {\n    };\n}\nconst E: u8 = 2;\n"
        "fn five() {\n    match f {\n        G => {}\n    }\n    h\n}\nfn six()\n    ensures i\n{}\nconst J: u8 = 3;\n"
    )

    def named(path, old):
        place = by_function.changed_place(path, text, text.find(old))
        return place.only, place.name, place.first, place.last

    for old, wanted in [
        ("A:", ("m", "", 0, 0)),
        ("a\n", ("m::one", "one", 2, 4)),
        ("b\n", ("C::two", "two", 6, 8)),
        ("c\n", ("CD::three", "three", 11, 13)),
        ("let d", ("m::four", "four", 15, 18)),
        # what stands behind a function isn't of it
        ("E:", ("m::four", "", 15, 18)),
        # an arm that does nothing doesn't end a function; a body that has nothing does
        ("h\n", ("m::five", "five", 20, 25)),
        ("ensures i", ("m::six", "six", 26, 28)),
        ("J:", ("m::six", "", 26, 28)),
    ]:
        same((old, named("src/m.rt", old)), (old, wanted))
    same(named("src/m/n.rt", "a\n")[0], "m::n::one")
    same(named("src/m/mod.rt", "a\n")[0], "m::one")
    for path in ("src/lib.rt", "src/main.rt", "specs/M.antt", "proofs/m/Answers.antt"):
        same(named(path, "a\n"), (None, "", 0, 0))


def an_impl_is_named_as_rattle_names_it(_world):
    def place_in(head):
        text = f"mod n;\n{head} {{\n    fn one() {{\n        a\n    }}\n}}\n"
        return by_function.changed_place("src/m.rt", text, text.find("a\n"))

    # as `rt check` printed them
    for head, wanted in [
        ("impl P", "P"),
        ("impl<A, B> Q<B, A>", "Q"),
        ("impl<T> Q<T, T>", "Q+T+T"),
        ("impl<'a, T: F<u8, B> + G, const N: usize> W<'a, T, N>\nwhere\n    T: Sync,\n", "W"),
        ("impl<T: Fn(u8, B) -> u8> Q<T, B>", "Q+T+B"),
        ("impl P<u8>", "P+u8"),
        ("impl<T> P<Option<Option<T>>>", "P+Option+Option+T"),
        ("impl DiskSite<HostRuntime>", "DiskSite+HostRuntime"),
        ("impl Rank<u8> for P<u8>", "PU8RankU8"),
        ("impl<T> Rank<Option<T>> for P<Option<T>>", "POptionRankOption"),
        ("impl<'a> fmt::Display for W<'a, 'static>", "WDisplay"),
        ("unsafe impl<T: Drop> From<Lost<T>> for Fault", "FaultFromLost"),
        # what isn't so simple is checked with its module
        ("impl W<'_, n::N>", ""),
        ("impl Flat for W<'_, (u8, bool)>", ""),
        ("impl<T> Rank<&T> for P<T>", ""),
        ("impl P<dyn Rank>", ""),
        ("impl<T> Rank<T> for [T]", ""),
        ("pub trait Rank<T>", ""),
    ]:
        place = place_in(head)
        same((head, place.only, place.owner), (head, f"{wanted}::one" if wanted else "m", wanted))
    [mine, other] = [place_in(f"impl From<{it}> for Fault") for it in ("Lost", "Late")]
    same([it.is_proved_in("proofs/m/FaultFromLost/one") for it in (mine, other)], [True, False])
    same([mine.is_proved_in(f"proofs/{it}") for it in ("n/FaultFromLost/one", "FaultFromLost/one/m", "m/one")], [True, False, False])


def what_is_said_of_another_function_of_the_name_is_not_said_of_it(_world):
    for path, own in [("src/m/n.rt", "m/n/one"), ("src/lib.rt", "one")]:
        place = by_function.Place(None, path, "one", "", 1, 3)
        found = [it for it in ("one", "m/one", "m/n/one", "m/n/P/one", "n/one", "m/n/two") if place.is_proved_in(f"proofs/{it}")]
        same((path, found), (path, [own]))


class Prover:
    """Stands for the prover below the kit's own rt: what it answers in turn, and the flags and texts that it was given."""

    def __init__(self, *verdicts):
        self.verdicts, self.flags, self.texts = list(verdicts), [], []

    def checked(self, _crate, texts, flags, kept):
        self.texts.append(texts)
        self.flags.append([it for it in flags if it != "--only"])
        status, *lines = self.verdicts.pop(0)
        return subprocess.CompletedProcess([], status, stdout="".join(f"{it}\n" for it in lines))

    def answers(self, world, *edits, is_proved=True):
        """Tries edits of the lowest crate, and returns which were refused."""
        was, RT.checked = RT.checked, self.checked
        crate, files = RT.rtlib.crates_below(world.root)[0], [f"{world.root}/{it}.edit" for it in edits]
        try:
            found = by_function.try_all(RT, crate, files, [], is_proved)
        finally:
            RT.checked = was
        same(self.verdicts, [])
        world.said = "\n".join(text for _, text in found)
        return [is_refused for is_refused, _ in found]


PROVED, NOT_PROVED = (0, "only=1 proved=1"), (1, "src/m.rt:2:5: error: `returns`: no proof", "logic=not-proved functions=3")


def failed(*lines):
    return (1, *lines, "only=1 proved=0")


def at(line, goal):
    return f"note: src/m.rt:{line}:1: it is not proved that what the function ensures holds when it returns (`{goal}`)"


def put_functions(world):
    world.put("crates/low/src/m.rt", "fn one() {\n    a\n    c\n}\n\nimpl T {\n    fn two() {\n        b\n    }\n}\n")
    for old in "abc":
        world.put(f"{old}.edit", f"file: src/m.rt\nold: {old}\nnew: {old}{old}\n")


def edits_of_different_functions_are_tried_in_one_check(world):
    put_functions(world)
    both = "fn one() {\n    aa\n    c\n}\n\nimpl T {\n    fn two() {\n        bb\n    }\n}\n"
    answers = failed(at(1, "returns-clause-some"), "./proofs/m/T/two/Answers.antt:3:4: error: `one_more-requires`: no")
    prover = Prover(answers)
    same((prover.answers(world, "a", "b"), prover.texts), ([True, True], [{"src/m.rt": both}]))
    same(prover.flags, [["T::two", "m::one"]])
    same(["breaks some:" in world.said, "breaks one_more requires:" in world.said], [True, True])
    # two edits of one function come one after the other
    prover = Prover(answers, failed(at(3, "returns")))
    same((prover.answers(world, "a", "b", "c"), len(prover.texts)), ([True] * 3, 2))


def other_functions_lose_their_bodies_and_proofs(world):
    head = "fn one() {\n    q\n}\n\n"
    others = (
        # a contract before its body, an arm that does nothing, a body on several lines
        "/// Says two.\npub fn two(\n    b: u8,\n)\n    ensures { b ≡ c }\n{\n    match b {\n        0 => {}\n    }\n    d\n}\n\n"
        "impl T {\n    fn three(&self) -> u8 {\n        e\n    }\n}\n\n"
        # these keep what they have
        "fn four() {}\n\npub trait U {\n    fn nine(&self) -> u8\n        ensures { r };\n}\n\nfn five()\n    ensures f\n{}\n\nconst fn six() -> u8 {\n    7\n}\n\n"
        "#[cycle(odd)]\n/// Says eight.\nfn eight() {\n    g\n}\n\nimpl Drop for T {\n    fn drop(self) {\n        h\n    }\n}\n"
    )
    left = others.replace("    match b {\n        0 => {}\n    }\n    d\n", "    unreachable!()\n\n\n\n").replace("    e\n", "    unreachable!()\n")
    left = left.replace("pub fn two", "#[tactic(none)] pub fn two").replace("fn three", "#[tactic(none)] fn three")
    world.put("crates/low/src/m.rt", head + others)
    ten = "#[tactic(auto, using(o))]\nfn ten() {\n"
    world.put("crates/low/src/n.rt", f"fn one() {{\n    k\n}}\n\n{ten}    l\n}}\n")
    world.put("q.edit", "file: src/m.rt\nold: q\nnew: qq\n")
    lost = ["m/two/Answers", "m/T/three/Answers", "m/T/three/Invariants", "n/ten/Answers"]
    # those of the edited function's name, of what keeps its body, of closures, and what isn't of a body
    for it in [*lost, "m/one/Answers", "n/one/Answers", "m/six/Answers", "m/eight/Answers", "m/fn/one/two/Answers", "m/two/Lemmas", "two"]:
        world.put(f"crates/low/proofs/{it}.antt", "m = 1\n")
    prover = Prover(failed(at(1, "returns")))
    same(prover.answers(world, "q"), [True])
    body = "    unreachable!()\n"
    code = {"src/m.rt": head.replace("q", "qq") + left, "src/n.rt": f"#[tactic(none)] fn one() {{\n{body}}}\n\n{ten}{body}}}\n"}
    same(prover.texts[0], {**code, **{f"proofs/{it}.antt": "" for it in lost}})


def silence_beside_others_says_nothing(world):
    put_functions(world)
    part, said = ["m::one"], failed(at(1, "returns"))
    cases = [
        ([said], True, [part]),
        # an edit of which nothing is said is tried alone, with all bodies
        ([PROVED, said], True, [part, part]),
        ([PROVED, PROVED], False, [part, part]),
        # what is said of another function isn't said of it
        ([failed(at(7, "returns")), failed(at(7, "returns"))], False, [part, part]),
        # where the others need their bodies, it is checked with them
        ([(2, "error[E1]: no"), said], True, [part, part]),
        # a check that wasn't ended says nothing
        ([(1, at(1, "returns")), said], True, [part, part]),
        ([(2, "error[E1]: no"), (2, "error[E1]: no")], False, [part, part]),
        ([(-9, at(1, "returns")), (-9, at(1, "returns"))], False, [part, part]),
    ]
    for verdicts, wanted, flags in cases:
        prover = Prover(*verdicts)
        same((verdicts, prover.answers(world, "a"), prover.flags), (verdicts, [wanted], flags))


def what_is_not_proved_without_the_edits_is_not_tried(world):
    put_functions(world)
    prover = Prover(failed(at(1, "returns")))
    same((prover.answers(world, "a", is_proved=False), prover.texts), ([False], [{}]))
    prover = Prover(PROVED, failed(at(1, "returns")))
    same((prover.answers(world, "a", is_proved=False), prover.texts[0]), ([True], {}))


def a_function_of_another_name_is_checked_with_its_module(world):
    put_functions(world)
    unknown = "rattle: error: `low` has no function `{}`: help: write the name that a check prints"
    no_method, no_module = (2, unknown.format("T::two")), (2, unknown.format("m"))
    # the other edit stays with its function
    prover = Prover(no_method, failed(at(1, "returns"), at(7, "returns")))
    same((prover.answers(world, "a", "b"), prover.flags), ([True, True], [["T::two", "m::one"], ["m", "m::one"]]))
    # where there is no such module, a whole check tells
    whole = (1, at(7, "returns"), "logic=not-proved functions=3")
    prover = Prover(no_method, no_module, failed(at(1, "returns")), whole)
    same((prover.answers(world, "a", "b"), prover.flags[2:]), ([True, True], [["m::one"], []]))


def an_edit_has_to_break_what_it_says(world):
    put_functions(world)
    world.put("a.edit", "breaks: some\nfile: src/m.rt\nold: a\nnew: aa\n")
    for goal, wanted in [("returns-in-Ok-clause-some", True), ("returns-clause-none", False), ("returns", False)]:
        # what isn't refused so beside others is tried alone
        prover = Prover(*[failed(at(1, goal))] * (1 if wanted else 2))
        same((goal, prover.answers(world, "a")), (goal, [wanted]))
    same("it doesn't break some, but ensures" in world.said, True)


def a_proof_that_no_longer_fits_says_nothing(world):
    put_functions(world)
    lost = "./proofs/m/one/Answers.antt:3:4: error: `returns-clause-some`: module has no `x` that can be named"
    same(Prover(failed(lost), failed(lost)).answers(world, "a"), [False])
    same("only stored proofs no longer fit it" in world.said, True)
    same(Prover(failed(lost), failed(lost, at(1, "returns"))).answers(world, "a"), [True])


def what_answers_share_breaks_what_they_answer(world):
    put_functions(world)
    answers = "both : A\nboth = tt\n\npub returns-clause-some : goal.returns-clause-some\nreturns-clause-some c = both\n"
    world.put("crates/low/proofs/m/one/Answers.antt", answers)
    lost = "./proofs/m/one/Answers.antt:2:8: error: `{}`: as printed, the two types first differ"
    left = "proofs/m/one/Answers.antt:5:1: error: {} on `{}`, which was rejected, {} not checked: {}"
    two = left.format("2 declarations that depend", "both", "were", "more, returns-clause-some")
    one = left.format("1 declaration that depends", "returns-clause-some", "was", "returns-clause-none")
    for said, wanted, text in [
        ([lost.format("both"), two], True, "breaks some: "),
        # an answer that others cite is that of its own goal
        ([lost.format("returns-clause-some"), one], True, "breaks some: "),
        # where it isn't said what it answers, no goal is named
        ([lost.format("both")], False, "names no goal"),
    ]:
        prover = Prover(*[failed(*said)] * (1 if wanted else 2))
        same((said, prover.answers(world, "a"), text in world.said), (said, [wanted], True))


TESTS = [
    each_wrong_body_is_tried_on_each_run,
    by_hand_all_edits_of_a_crate_are_tried,
    what_is_not_refused_fails,
    what_does_not_compile_fails,
    an_edit_that_does_not_apply_fails_untried,
    the_page_has_a_line_for_each_wrong_body,
    libraries_have_to_be_there,
    the_changed_function_is_named,
    an_impl_is_named_as_rattle_names_it,
    what_is_said_of_another_function_of_the_name_is_not_said_of_it,
    edits_of_different_functions_are_tried_in_one_check,
    other_functions_lose_their_bodies_and_proofs,
    silence_beside_others_says_nothing,
    what_is_not_proved_without_the_edits_is_not_tried,
    a_function_of_another_name_is_checked_with_its_module,
    an_edit_has_to_break_what_it_says,
    a_proof_that_no_longer_fits_says_nothing,
    what_answers_share_breaks_what_they_answer,
]


def main():
    failed = 0
    for test in TESTS:
        with tempfile.TemporaryDirectory() as root:
            world = World(root)
            try:
                test(world)
            except AssertionError as error:
                print(f"{test.__name__}: {error}\n{world.said}")
                failed += 1
    print(f"{len(TESTS) - failed} passed, {failed} failed")
    return 1 if failed else 0


if __name__ == "__main__":
    sys.exit(main())
