"""What the prover says of wrong bodies."""

import enum
import re

LINE = re.compile(r"fn (\S+): (.*)")

# What the prover calls a limit of its own, at which it gives no verdict.
LIMIT = re.compile(r"ran out of (stack|the (steps|memory))|(outgrew the memory|stopped at the step) limit")

# What it says of a proof that names what is no longer there.
NAME_GONE = re.compile(r"has no field|is not in scope|has no `|was not admitted")

# An error in a text of the crate, which may name what the error is in.
ERROR = re.compile(r"^(?:\./)?(?:src|specs)/\S+: error: (`[^`]*`: )?(.*)", re.MULTILINE)

# What such an error says, beside names, of a text that can't be read or that names what there isn't.
CANT_READ = re.compile(r"is not in scope|has no field|is no name|operand is missing|expected the end|cannot continue")

# So many lines are told of a check that says nothing of a function.
LAST_LINES = 20


class Verdict(enum.Enum):
    """What a wrong body came to."""

    REFUSED = "refused"
    AT_LIMIT = "not judged, since the prover came to a limit"
    NAME_GONE = "refused only since a proof names what the edit took away, which says nothing of the contract"
    PROVED = "not refused"
    UNCLEAR = "not judged"


# An edit of several functions came to the first of these that one of them came to.
ORDER = (Verdict.REFUSED, Verdict.NAME_GONE, Verdict.AT_LIMIT, Verdict.UNCLEAR)


class Said:
    """What a check said: its status, its text, and what it says of each function of the crate, by the function's path."""

    def __init__(self, crate, status, text):
        self.crate, self.status, self.text = crate, status, text
        lines = (LINE.fullmatch(line) for line in text.splitlines())
        self.functions = {found[1].removeprefix(f"{crate}::"): found[2] for found in lines if found}

    def verdict_on(self, path, is_alone=False):
        """What a function came to. Where it is refused for what it stands on, nothing is known of its own body, unless one edit was
        tried alone."""
        said = self.functions.get(path)
        if said is None:
            return Verdict.UNCLEAR
        if said == "proved" or said == "no holes":
            return Verdict.PROVED
        if "could not tell" in said:
            return Verdict.AT_LIMIT
        if not is_alone and not self.is_at_fault_itself(path, said):
            return Verdict.UNCLEAR
        return Verdict.NAME_GONE if self.lacks_names_alone(path, is_alone) else Verdict.REFUSED

    def is_at_fault_itself(self, path, said):
        """Whether proofs of a function itself are refused, or lacking."""
        named = f"`Rattle.{self.crate}.proofs.{path.replace('::', '.')}."
        return said == "not proved" or named in said or f" ./proofs/{path.replace('::', '/')}/" in said

    def lacks_names_alone(self, path, is_alone):
        """Whether a function is refused for nothing but names in its proofs that are gone. Where one edit was tried alone, all
        proofs are looked at, since a proof may be refused for another that it cites."""
        files = r"\S+" if is_alone else rf"proofs/{path.replace('::', '/')}/\S+"
        errors = re.findall(rf"^(?:\./)?{files}: error: (.*)", self.text, re.MULTILINE)
        return "did not prove" not in self.functions[path] and bool(errors) and all(NAME_GONE.search(it) for it in errors)

    def verdict_in(self, functions, is_alone):
        """What an edit of these functions came to, beside others or alone. An edit of several came to what it came to in one."""
        found = {self.verdict_on(path, is_alone) for path in functions}
        return next((it for it in ORDER if it in found), Verdict.PROVED)

    def is_read(self):
        """Whether all texts of the crate could be read. Where one couldn't, no contract was tried."""
        return all(found[1] and not CANT_READ.search(re.sub("`[^`]*`", "", found[2])) for found in ERROR.finditer(self.text))

    def beside(self, edits):
        """What the functions came to in which none of these edits stands."""
        edited = {path for edit in edits for path in edit.functions}
        return {self.verdict_on(it) for it in self.functions if it not in edited}

    def verdict_in_all(self):
        """What an edit came to for which all of the crate was checked."""
        last = self.text.rstrip().rpartition("\n")[2]
        if self.status == 0:
            return Verdict.PROVED
        if self.status == 1 and last.startswith("logic=not-proved"):
            return Verdict.REFUSED
        return Verdict.AT_LIMIT if self.status == 3 and LIMIT.search(self.text) else Verdict.UNCLEAR

    def about(self, functions):
        """What it says of these functions, or at its end where it says nothing of them."""
        told = [f"fn {path}: {self.functions[path]}" for path in sorted(functions) if path in self.functions]
        return "\n".join(told or self.text.splitlines()[-LAST_LINES:])
