"""Each public function has a wrong body of its own that must be refused, or a reason why none can be written. What is told of wrong
bodies is tried over a stand-in for the prover."""

import subprocess
import sys

from checks.standin import in_trees

# A crate with three functions.
SOURCE = """const SIZE: u8 = few;

fn first() -> u8 {
    right
}

fn second() -> u8 {
    good
}

fn third() -> u8 {
    fair
}
"""


# A crate below it.
LOW = """// What it is.
const SIZE: u8 = 1;

fn low() -> u8
    ensures { promised }
{
    kept
}
"""

# Puts a crate on record, whatever becomes of its wrong bodies.
ON_RECORD = """
from bodies.record import put_on_record, sums_over
from building.kit import Kit
logic = Kit().logic
put_on_record("left", sums_over(["left"], logic)["left"], logic)
"""


def edit(old, new, *more):
    """The text of a wrong body."""
    return "".join(f"{line}\n" for line in [*more, "file: src/lib.rt", f"old: {old}", f"new: {new}"])


def tried(tree, *words, source=SOURCE, **edits):
    """Tries these wrong bodies of a crate, and answers how that ended."""
    tree.edit("left", source)
    for name, text in edits.items():
        tree.put(f"crates/left/wrong-bodies/{name}.edit", text)
    ran = tree.run(*words, "left", script=tree.top / "scripts/wrong_bodies")
    for name in edits:
        (tree.top / f"crates/left/wrong-bodies/{name}.edit").unlink()
    return ran


def expect_told(tree, name, ran, status, *lines):
    """It ended with this status and told these lines, whatever it told besides."""
    told = ran.stdout.splitlines()
    tree.expect(name, ran.returncode == status and not {*lines}.difference(told), ran)


def expect_counted(tree, name, ran, edits, checks):
    """So many wrong bodies were tried in so many checks."""
    tree.expect(f"{name}: checks", f"left: {edits} in {checks} checks, " in ran.stdout, ran)


def check_refused(tree):
    """Wrong bodies are refused: those of several functions in one check, those of one function one by one."""
    ran = tried(tree, a=edit("right", "wrong"), b=edit("good", "wrong"))
    expect_told(tree, "two functions", ran, 0, "left a: refused", "left b: refused")
    expect_counted(tree, "two functions", ran, 2, 1)
    ran = tried(tree, a=edit("right", "wrong"), b=edit("    right", "    wrong"))
    expect_told(tree, "one function twice", ran, 0, "left a: refused", "left b: refused")
    expect_counted(tree, "one function twice", ran, 2, 2)
    ran = tried(tree, a=edit("few", "many"))
    expect_told(tree, "outside of bodies", ran, 1, "left a: not refused")
    ran = tried(tree, a=edit("few;", "few; // spreads"))
    expect_told(tree, "outside of bodies, refused", ran, 0, "left a: refused")
    ran = tried(tree, a=edit("few;", "few; // spreads", "# refused-in: first"))
    expect_told(tree, "outside of bodies, in a function", ran, 0, "left a: refused")
    ran = tried(tree, a=edit("few;", "few; // spreads", "# refused-in: second"))
    expect_told(tree, "outside of bodies, in another function", ran, 1, "left a: not refused")


def check_not_refused(tree):
    """What isn't refused is told, and so is what says nothing of the contract or can't be tried."""
    ran = tried(tree, a=edit("right", "well"), b=edit("good", "wrong"))
    expect_told(tree, "a body that is proved", ran, 1, "left a: not refused", "left b: refused")
    ran = tried(tree, a=edit("fair", "gone"))
    is_told = ran.returncode == 1 and "left a: refused only since a proof names what the edit took away" in ran.stdout
    tree.expect("a name that is gone", is_told, ran)
    ran = tried(tree, a=edit("good", "wrong spreads"), b=edit("fair", "well"))
    expect_told(tree, "a function refused beside", ran, 1, "left a: refused", "left b: not refused")
    # Together, one by one, and as they are.
    expect_counted(tree, "a function refused beside", ran, 2, 4)
    for name, text in (("nowhere", edit("elsewhere", "wrong")), ("twice", edit("u8", "wrong")), ("nothing", "file: src/lib.rt\n")):
        ran = tried(tree, a=text)
        tree.expect(f"a text that stands {name}", ran.returncode == 1 and ran.stderr and not ran.stdout, ran)
    ran = tree.run("low", script=tree.top / "scripts/wrong_bodies")
    tree.expect("a crate with none", (ran.returncode, ran.stderr) == (1, "low is no crate with wrong bodies\n"), ran)


def check_not_judged(tree):
    """What can't be judged counts for nothing: what can't be read, what is too long, and what is refused as it is."""
    not_judged = "left a: not judged"
    ran = tried(tree, a=edit("right", "unread"), b=edit("good", "wrong"))
    expect_told(tree, "a text that can't be read", ran, 1, not_judged, "left b: refused")
    ran = tried(tree, a=edit("right", "long"), b=edit("good", "wrong"))
    expect_told(tree, "a limit", ran, 1, f"{not_judged}, since the prover came to a limit", "left b: refused")
    ran = tried(tree, source=SOURCE.replace("good", "wrong"), a=edit("right", "wrong"))
    expect_told(tree, "another function refused as it is", ran, 0, "left a: refused")
    expect_counted(tree, "another function refused as it is", ran, 1, 3)
    alone = "fn alone() -> u8 {\n    right\n}\n"
    ran = tried(tree, source=alone, a=edit("right", "wrong"))
    expect_told(tree, "a function by itself", ran, 0, "left a: refused")
    expect_counted(tree, "a function by itself", ran, 1, 2)
    ran = tried(tree, source=alone.replace("right", "wrong"), a=edit("    wrong", "    wrong and more"))
    expect_told(tree, "a function by itself, refused as it is", ran, 1, not_judged)
    ran = tried(tree, "--each", a=edit("right", "wrong"), b=edit("good", "well"))
    expect_told(tree, "each by itself", ran, 1, "left a: refused", "left b: not refused")
    expect_counted(tree, "each by itself", ran, 2, 3)
    ran = tried(tree, "--each", source=SOURCE.replace("fair", "wrong"), a=edit("right", "wrong"))
    expect_told(tree, "each by itself, over a crate that isn't proved", ran, 1, not_judged)


def expect_step(tree, name, status, last, told, again=0, words=("bodies",)):
    """The check of wrong bodies ended so, and told this of how many were tried, and how many of those on record again."""
    ran = subprocess.run([tree.top / "check", *words], **tree.how(), capture_output=True, text=True)
    is_told = f"bodies: {told}, {again} of these tried again\n" in ran.stdout
    tree.expect(f"a step {name}", (ran.returncode, ran.stdout.splitlines()[-1:], is_told) == (status, [last], True), ran)
    return ran


def check_step(tree):
    """The check counts each wrong body, and tells which crates' took longest. Those on record aren't tried again, as long as all
    that they hang on stays as it is."""
    tree.edit("low", LOW)
    tree.edit("left", SOURCE)
    for name, text in (("a", edit("right", "wrong")), ("b", edit("good", "wrong"))):
        tree.put(f"crates/left/wrong-bodies/{name}.edit", text)
    both = "2 wrong bodies tried in 1 checks, 0 on record"
    ran = expect_step(tree, "over what isn't on record", 0, "2 passed, 0 failed", both)
    tree.expect("a step tells how long it took", "left: 2 in 1 checks" in ran.stdout, ran)
    expect_step(tree, "puts nothing on record", 0, "2 passed, 0 failed", both)
    script = tree.top / "scripts/wrong_bodies"
    tree.expect("wrong bodies for the record", tree.run(script=script).returncode == 0, "")
    known = "0 wrong bodies tried in 0 checks, 2 on record"
    expect_step(tree, "over the record", 0, "0 passed, 0 failed", known)
    tree.edit("left", SOURCE.replace("fair", "best"))
    expect_step(tree, "over another text", 0, "2 passed, 0 failed", both)
    tree.edit("left", SOURCE)
    expect_step(tree, "over the old text", 0, "0 passed, 0 failed", known)
    tree.edit("low", f"{LOW}// More of it.\n".replace("kept", "broken"))
    expect_step(tree, "over another body below", 0, "0 passed, 0 failed", known)
    tree.edit("low", LOW.replace("promised", "another"))
    expect_step(tree, "over another promise below", 0, "2 passed, 0 failed", both)
    tree.edit("low", LOW.replace("SIZE", "SMALL"))
    expect_step(tree, "over another constant below", 0, "2 passed, 0 failed", both)
    tree.run(script=script)
    expect_step(tree, "over the record of all", 0, "0 passed, 0 failed", known)
    tree.put("crates/left/wrong-bodies/a.edit", edit("right", "well"))
    expect_step(tree, "over another wrong body", 1, "1 passed, 1 failed", both)
    tree.expect("a wrong body for the record that is proved", tree.run(script=script).returncode == 1, "")
    tree.put("crates/left/wrong-bodies/a.edit", edit("right", "wrong"))
    expect_step(tree, "over what was taken off the record", 0, "2 passed, 0 failed", both)


def check_again(tree):
    """Behind the gate one of each crate on record is tried again, so that a record which isn't true is found out."""
    tree.edit("left", SOURCE)
    for text, status, last in (("wrong", 0, "4 passed, 0 failed"), ("well", 1, "3 passed, 1 failed")):
        tree.put("crates/left/wrong-bodies/a.edit", edit("right", text))
        how = tree.how(PYTHONPATH=str(tree.top / "scripts"))
        done = subprocess.run([sys.executable, "-c", ON_RECORD], **how, capture_output=True)
        tree.expect("one on record", done.returncode == 0, done)
        known = "0 wrong bodies tried in 0 checks, 1 on record"
        expect_step(tree, f"behind the gate, {text}", status, last, known, 1, ["proofs", "bodies"])


def check(report):
    ran = subprocess.run([report.top / "scripts/functions_without_edits"], capture_output=True, text=True)
    print(ran.stdout.strip().splitlines()[-1] if ran.stdout.strip() else ran.stderr)
    report.expect("each public function has an edit of its own", ran.returncode == 0, ran.stdout + ran.stderr)
    in_trees(report, [check_refused], [check_not_refused], [check_not_judged], [check_step], [check_again])
