"""The functions of a source file, where their bodies stand, and how the prover names them."""

import re

VISIBLE = r"(?:pub(?:\([a-z]+\))? )?"
TYPE = re.compile(rf"^ *{VISIBLE}(?:struct|enum|union|trait) (\w+)", re.MULTILINE)
BLOCK = re.compile(rf" *{VISIBLE}(?:impl|trait)\b(.*)")
ITEM = re.compile(rf"^( *)(pub(?:\([a-z]+\))? )?(const )?(?:extern \"C\" )?fn (\w+)|^{BLOCK.pattern}", re.MULTILINE)


class Block:
    """What a function stands in: a block of a type's own, or of a trait's for a type, or a trait."""

    def __init__(self, head):
        trait, is_of_trait, type_name = without_parameters(head).partition(" for ")
        self.owner = last_name(type_name if is_of_trait else trait)
        self.trait = last_name(trait) if is_of_trait else ""


class Function:
    """A function: the block that it stands in, if it stands in one, its name, and where its body stands. It may be public, and for
    constants too."""

    def __init__(self, block, item, begin, end):
        self.block, self.own_name, self.begin, self.end = block, item[4], begin, end
        self.is_public, self.is_constant = item[2] == "pub ", bool(item[3])
        self.name = f"{block.owner}::{self.own_name}" if block else self.own_name

    def path(self, module, types):
        """Its name with the prover, which has the functions of a type in the type's own module."""
        if not self.block:
            return "::".join([*module, self.own_name])
        own_module = module if self.block.trait else types.get(self.block.owner, module)
        return "::".join([*own_module, self.block.owner + self.block.trait, self.own_name])


def without_parameters(text):
    """A text without what stands in angle brackets."""
    shorter = re.sub(r"<[^<>]*>", "", text.replace("->", ""))
    return shorter if shorter == text else without_parameters(shorter)


def last_name(text):
    """The last word of the path that a text begins with."""
    return re.match(r"\s*(?:&(?:mut )?)?(\w+(?:::\w+)*)", text)[1].split("::")[-1]


def functions_of(text):
    """The functions of a file that have bodies, in their order."""
    found, block = [], None
    for item in ITEM.finditer(text):
        if not item[4]:
            block = Block(item[5])
            continue
        indent = item[1]
        # A body begins on a line of its own behind clauses, and else at the end of the function's head. A head may have no body.
        opens = re.compile(rf"^{indent}\{{$| \{{$|;$", re.MULTILINE).search(text, item.start())
        has_body = opens and opens[0] != ";"
        closes = re.compile(rf"^{indent}\}}$", re.MULTILINE).search(text, opens.end()) if has_body else None
        if closes:
            found.append(Function(block if indent else None, item, opens.end(), closes.start()))
    return found


def module_of(file):
    """The module of a file of sources, which is named by its path below the crate."""
    names = file.removeprefix("src/").removesuffix(".rt").split("/")
    return names[:-1] if names[-1] in ("lib", "main", "mod") else names


def types_of(crate):
    """The module of each type and trait of a crate, which is given by its folder."""
    files = {file.relative_to(crate).as_posix(): file.read_text() for file in (crate / "src").rglob("*.rt")}
    return {name: module_of(file) for file, text in files.items() for name in TYPE.findall(text)}
