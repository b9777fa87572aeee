"""The documents are true of the sources: links lead somewhere, definitions stand in their files, words in their crates, and the
public calls in their table; counts are as they are counted. No sentence of theirs, or of a docstring, is longer than 40 words.
In a docstring a colon ends a sentence too."""

import re
import subprocess
import textwrap
from itertools import zip_longest

from checks.failures import ANSWERED

WIDTH = 132
# Words that a sentence may have.
LONGEST = 40

LINK = re.compile(r"\[[^\]]+\]\(([^)\s]+)\)")
MEANT = re.compile(r"^\[([^\]]+)\]: (\S+)$", re.MULTILINE)
USED = re.compile(r"\[([^\]`]+)\](?![(:])")
NAME = re.compile(r"`(\w+)`")
# Names, and behind them the file in which they stand.
TOLD = re.compile(r"((?:`\w+`(?:,| and|, and| over)? )*`\w+`) \(?(?:(?:both|all) )?\[([\w/]+\.antt)\]")
# What is declared: an item of a source, a definition, a field, a variant.
DECLARED = re.compile(
    r"^ *(?:pub(?:\([a-z]+\))? )?(?:const )?(?:fn|struct|enum|type|trait|mod|const) (\w+)"
    r"|^(?:pub )?(?:abbrev|unfoldable|record|data) (?:pub )?(\w+)"
    r"|^ +pub (\w+) ?:"
    r"|^    ([A-Z]\w*)(?:,$|\(| \{$)",
    re.MULTILINE,
)
# The name of a definition that other files may cite, and that of a type.
DEFINED = re.compile(r"^(?:abbrev pub|unfoldable pub|pub record|pub data) (\w+)", re.MULTILINE)
TYPE = re.compile(r"^(?:pub(?:\([a-z]+\))? )?(?:struct|enum|record|data) (\w+)", re.MULTILINE)
# What the tables of a product word and of an embedded link control both have.
CELLS = {"cell", "place", "row", "column"}
# What a file passes on of other files or crates, the modules that it shows, and what it shows itself.
PASSED_ON = re.compile(r"^pub use (?:\w+::)+(?:(\w+(?: as \w+)?)|\{([^}]*)\});", re.MULTILINE)
USED_NAME = re.compile(r"(?:\w+ as )?(\w+)")
MODULE = re.compile(r"^pub mod (\w+);", re.MULTILINE)
SHOWN = re.compile(r"^pub (?:const )?(?:fn|struct|enum|trait|const|type) (\w+)", re.MULTILINE)
MACRO = re.compile(r"^#\[macro_export\]\nmacro_rules! (\w+)", re.MULTILINE)
# The calls and constants of a type, and those of a trait.
BLOCK = re.compile(r"^(impl|pub trait)(?:<[^>]*>)? (\w+)[^\n{]* \{\n(.*?)^\}", re.MULTILINE | re.DOTALL)
OF_BLOCK = {
    "impl": re.compile(r"^    pub (?:const )?(?:fn|const) (\w+)", re.MULTILINE),
    "pub trait": re.compile(r"^    (?:fn|const) (\w+)", re.MULTILINE),
}
# In the table of public calls a name, and behind a type, a trait or a module what it has.
TOLD_CALL = re.compile(r"`(\w+!?)`(?: \(((?:`\w+`(?:, )?)+)\))?")
PUBLIC_CALLS = "| Crate | Functions | Types and traits, with their calls | Constants |"

# A docstring, without the code in front of it.
DOCSTRING = re.compile(r"^ *//[/!] ?(.*)$")
# How a list item begins, in a list and in the middle of a paragraph; a heading, or what a link means; code that is indented; code
# between fences.
ITEM = re.compile(r"^ *(?:[-*] |\d+\. )")
FIRST_ITEM = re.compile(r"^ *(?:[-*] |1\. )")
ALONE = re.compile(r"#|\[[^\]]+\]: ")
INDENTED = re.compile(r"    ")
FENCE = re.compile(r" *```")
# Code, and a link of a text. Both may go over several lines.
CODE = re.compile(r"`[^`]*`")
LINKED = re.compile(r"\[([^\]]*)\](?:\([^)\s]*\)|\[[^\]]*\])")
# A word of code without spaces, what makes it a file's name, and where the files stand.
WORD = re.compile(r"`([^`\s]+)`")
FILE = re.compile(r"/|\.(?:rt|antt|edit|py|md|txt|1)$")
TOLD_FOLDERS = "crates", "docs", "scripts", "share", "samples"
# The last word of a sentence, with brackets, quotes and marks behind it: in a document, and in a docstring.
LAST_WORD = re.compile(r"[.!?][)\]\"'*_]*$")
LAST_OF_DOCSTRING = re.compile(r"[.!?:][)\]\"'*_]*$")


def documents_of(report):
    """The names of all documents."""
    pages = [*report.top.glob("*.md"), *report.top.glob("docs/*.md"), report.top / "samples/README.md"]
    return sorted(str(it.relative_to(report.top)) for it in pages)


def sources_of(crate):
    return sorted((crate / "src").rglob("*.rt"))


def definitions_of(crate):
    return sorted((crate / "specs").glob("*.antt"))


def declared_in(*files):
    """Every word that is declared in files."""
    return {word for file in files for found in DECLARED.findall(file.read_text()) for word in found if word}


def anchor_of(heading):
    """The anchor of a heading, as it is made where the documents are read."""
    return re.sub(r"[^\w\- ]", "", heading.lower()).replace(" ", "-")


def anchors_in(text):
    return {anchor_of(it) for it in re.findall(r"^#+ (.*)$", text, re.MULTILINE)}


def check_link(report, file, target):
    """A link leads to a file, and in a document to a heading of it."""
    path, _, anchor = target.partition("#")
    place = (file.parent / path).resolve() if path else file
    is_there = place.exists() and (not anchor or anchor in anchors_in(place.read_text()))
    report.expect(f"{file.name} links to {target}", is_there, place)


def check_files_told(report):
    """What those read who change something names no file that isn't there, by its name or by the end of its path."""
    text = "".join((report.top / it).read_text() for it in ("CONTRIBUTING.md", "docs/recipes.md"))
    told = {it for it in WORD.findall(text) if "NAME" not in it and FILE.search(it)}
    files = [it for folder in TOLD_FOLDERS for it in report.top.glob(f"{folder}/**/*") if "out" not in it.parts]
    paths = {f"/{it.relative_to(report.top)}" for it in [*files, *report.top.iterdir()]}
    missing = sorted(name for name in told if not any(path.endswith("/" + name.strip("./")) for path in paths))
    report.expect("the recipes name files", len(told) > 100, len(told))
    report.expect("the files that the recipes and CONTRIBUTING.md name are there", not missing, missing)


def check_links(report):
    for name in documents_of(report):
        file = report.top / name
        text = file.read_text()
        meant = dict(MEANT.findall(text))
        for target in [*LINK.findall(text), *meant.values()]:
            check_link(report, file, target)
        used = set(USED.findall(MEANT.sub("", text)))
        report.expect(f"each link of {name} is used", used >= set(meant), set(meant) - used)
        files = {it for it in used if it.endswith(".antt")}
        report.expect(f"each file that {name} tells is linked", files <= set(meant), files - set(meant))


def cells_of(row):
    return [cell.strip() for cell in row.split("|")]


def tables_of(text, head):
    """The rows of the table with this head, without the rule under it."""
    begin = text.index(head) + len(head)
    rows = []
    for line in text[begin:].lstrip("\n").splitlines():
        if not line.startswith("|"):
            break
        rows.append(cells_of(line.strip("|")))
    return rows[1:]


def check_definitions(report):
    """Where the promises tell a definition and its file, it stands there; a law or a call is a function of that crate."""
    text = " ".join((report.top / "docs/promises.md").read_text().split())
    told = {(name, file) for names, file in TOLD.findall(text) for name in NAME.findall(names)}
    report.expect("the promises tell definitions", len(told) > 100, len(told))
    for name, file in sorted(told):
        crates = report.top / "crates"
        sources = sources_of(crates / file.split("/")[0])
        report.expect(f"{name} stands in {file}", name in declared_in(crates / file, *sources))


def check_promises(report):
    """Each type and relation that a promise names stands in a file that it tells, or is one of the sources of such a crate."""
    text = (report.top / "docs/promises.md").read_text()
    crates = report.top / "crates"
    for promise in re.findall(r"^- (?:.+\n)+", text, re.MULTILINE):
        files = re.findall(r"\[([\w/]+\.antt)\]", promise)
        sources = [it for crate in {file.split("/")[0] for file in files} for it in sources_of(crates / crate)]
        declared = declared_in(*[crates / file for file in files], *sources)
        for name in re.findall(r"`([A-Z]\w+)[`:]", promise) if files else []:
            report.expect(f"{name} stands where its promise tells", name in declared, promise.split("\n")[0])


def check_headline(report):
    """Each word of the headline stands in the file of its row; a law stands in its crate."""
    text = (report.top / "docs/promises.md").read_text()
    for _, definition, file in tables_of(text, "| Word | Definition | File |"):
        place = report.top / "crates" / file.strip("[]")
        law = re.match(r"law `(\w+)` of (\w+)", definition)
        if law:
            laws = report.top / "crates" / law[2] / "src/laws.rt"
            report.expect(f"the law {law[1]} stands in {law[2]}", law[1] in declared_in(laws))
        for name in NAME.findall(definition)[bool(law):]:
            report.expect(f"{name} of the headline stands in {file}", name in declared_in(place))


def check_words(report):
    """Each word of the list stands in its crate, and each definition in its files."""
    text = (report.top / "docs/architecture.md").read_text()
    for _, _, stands in tables_of(text, "| Word | Means | Stands in |"):
        for piece in stands.split(";"):
            for crate in (report.top / "crates" / it for it in re.findall(r"\bdmr_\w+", piece)):
                declared = declared_in(*sources_of(crate), *definitions_of(crate))
                for name in NAME.findall(piece):
                    report.expect(f"{name} stands in {crate.name}", name in declared)
    for names, _, stands in tables_of(text, "| Definition | Says | Stands in |"):
        name_of_crate, *files = re.split(r", | and ", stands)
        crate = report.top / "crates" / name_of_crate
        places = [crate / f"specs/{it}.antt" for it in files if "one file a" not in it] or definitions_of(crate)
        for name in NAME.findall(names):
            report.expect(f"{name} stands in {stands}", name in declared_in(*places))


def check_rules(report):
    """docs/architecture.md tells of rules and meaning in files of definitions that are there."""
    text = (report.top / "docs/architecture.md").read_text()
    text = text[text.index("\n## Rules and meaning\n") :]
    tables = re.findall(r"^In [^`\n]+`(\w+/specs)`[^`\n]*:\n\n((?:\|.*\n)+)", text, re.MULTILINE)
    told = [(folder, name) for folder, table in tables for name in re.findall(r"`([\w/]+\.antt)`", table)]
    places = [report.top / "crates" / (name if "/" in name else f"{folder}/{name}") for folder, name in told]
    missing = [str(it) for it in places if not it.exists()]
    report.expect("files of rules and meaning are told", len(places) > 40, len(places))
    report.expect("the files of rules and meaning are there", not missing, missing)


def libraries_of(report):
    """The crates but for those of tests."""
    crates = sorted(it for it in (report.top / "crates").iterdir() if (it / "src").is_dir())
    return [it for it in crates if not it.name.startswith("dmr_test_") and not it.name.endswith("_tests")]


def homes_of(found, files):
    """For each name that is found in files, the files."""
    homes = {}
    for file in files:
        for name in found.findall(file.read_text()):
            homes.setdefault(name, []).append(file)
    return homes


def check_names(report):
    """Each definition has a name of its own, but for the cells of tables."""
    homes = homes_of(DEFINED, [file for crate in libraries_of(report) for file in definitions_of(crate)])
    several = {name: files for name, files in homes.items() if len(files) > 1 and name not in CELLS}
    report.expect("definitions are found", len(homes) > 500, len(homes))
    report.expect("each definition has a name of its own", not several, several)


def check_types(report):
    """Where several crates have a type of one name, the word list has it for each of them."""
    owners = {}
    for crate in libraries_of(report):
        for name in homes_of(TYPE, sources_of(crate) + definitions_of(crate)):
            owners.setdefault(name, set()).add(crate.name)
    shared = {(name, crate) for name, crates in owners.items() if len(crates) > 1 for crate in crates}
    text = (report.top / "docs/architecture.md").read_text()
    pieces = [it for *_, stands in tables_of(text, "| Word | Means | Stands in |") for it in stands.split(";")]
    told = {(name, crate) for it in pieces for name in NAME.findall(it) for crate in re.findall(r"\bdmr_\w+", it)}
    report.expect("types of one name are found", len(shared) > 20, shared)
    report.expect("the word list has each type whose name several crates have", shared <= told, sorted(shared - told))


def check_crates(report):
    """docs/architecture.md lists each crate, lowest first, has each in a layer, and tells where the tests of each library stand; no
    document names any other."""
    listed = re.findall(r"^(\w+)(?: staticlib)?:", (report.top / "crates.txt").read_text(), re.MULTILINE)
    there = {it.name for it in (report.top / "crates").iterdir() if (it / "src").is_dir()}
    report.expect("crates.txt lists each crate", set(listed) == there, set(listed) ^ there)
    wanted = [it for it in listed if not it.startswith("dmr_test_") and not it.endswith("_tests")]
    architecture = (report.top / "docs/architecture.md").read_text()
    in_list = re.findall(r"^- \*\*(\w+)\*\*: ", architecture, re.MULTILINE)
    report.expect("docs/architecture.md lists each crate, lowest first", in_list == wanted, in_list)
    layers = tables_of(architecture, "| Layer | Crates |")
    in_layers = [it for _, crates in layers for it in re.findall(r"\bdmr\w+", crates)]
    is_so = sorted(in_layers) == sorted(wanted)
    report.expect("docs/architecture.md has each crate in a layer", is_so, set(in_layers) ^ set(wanted))
    libraries = {it for it in wanted if (report.top / "crates" / it / "src/lib.rt").exists()}
    tested = {it for crates, _ in tables_of(architecture, "| Tests of | Stand in |") for it in re.findall(r"\bdmr_\w+", crates)}
    report.expect("docs/architecture.md tells where the tests of each library stand", tested == libraries, tested ^ libraries)
    # What C calls has such names too.
    of_c = set(re.findall(r"\bdmr_\w+", (report.top / "share/c/dmrgate.h").read_text()))
    for name in documents_of(report):
        told = set(re.findall(r"\bdmr(?:_|gate_)\w+", (report.top / name).read_text()))
        report.expect(f"{name} names no crate that isn't there", told <= there | of_c, told - there - of_c)


def picture_of(crates_txt):
    """The picture of the crates, by the lines of crates.txt: on which floor each one stands, and on which others."""
    lines = re.findall(r"^(\w+)(?: staticlib)?:(.*)$", crates_txt, re.MULTILINE)
    libraries = [name for name, _ in lines if not name.startswith("dmr_test_") and not name.endswith("_tests")]
    named = {name: [it for it in words.split() if it in libraries] for name, words in lines}
    floors, below = {}, {}
    for name in libraries:
        floors[name] = 1 + max((floors[it] for it in named[name]), default=0)
        below[name] = set(named[name]).union(*(below[it] for it in named[name]))
    of_repeating, of_tools = ({program} | below[program] for program in ("dmrgate", "dmrgate_tools"))
    # What stands below neither program yet is beside the tools.
    wings = of_repeating - of_tools, of_repeating & of_tools, set(libraries) - of_repeating
    rows = [("floor", "the one that repeats", "both programs", "the tools")]
    for floor in range(max(floors.values()), 0, -1):
        on_floor = [", ".join(it for it in libraries if it in wing and floors[it] == floor) for wing in wings]
        # A floor with many crates takes as many rows as its longest wing.
        for cells in zip_longest([str(floor)], *(textwrap.wrap(names, 48) for names in on_floor), fillvalue=""):
            rows.append(cells)
    widths = [max(map(len, column)) for column in zip(*rows)]
    picture = ["  ".join(cell.ljust(width) for cell, width in zip(row, widths)).rstrip() for row in rows] + [""]
    for name in reversed(libraries):
        # What these stand on themselves goes without saying.
        at_once = [it for it in named[name] if not any(it in below[other] for other in named[name])]
        line = f"{name.ljust(max(map(len, libraries)))} ── {', '.join(at_once)}"
        picture += textwrap.wrap(line, 132, subsequent_indent=" " * (4 + max(map(len, libraries)))) if at_once else []
    return "\n".join(picture)


def check_picture(report):
    """docs/architecture.md has the picture of the crates as crates.txt has them, with each of them."""
    crates_txt = (report.top / "crates.txt").read_text()
    picture = picture_of(crates_txt)
    is_drawn = f"```\n{picture}\n```\n" in (report.top / "docs/architecture.md").read_text()
    report.expect("the picture of the crates", is_drawn, f"it should be\n{picture}")
    missing = {it.name for it in libraries_of(report)} - set(re.findall(r"\w+", picture))
    report.expect("the picture has each crate", not missing, missing)


def of_each(name, of_name):
    """A name, and what it has."""
    return {name} | {f"{name}::{it}" for it in of_name}


def public_calls_of(crate):
    """What a user of a crate can name: what its `lib.rt` shows, with the calls of types and traits, its modules and macros."""
    library = (crate / "src/lib.rt").read_text()
    names = {it for one, several in PASSED_ON.findall(library) for it in USED_NAME.findall(one or several)}
    names |= set(SHOWN.findall(library))
    calls = set(names)
    for text in (it.read_text() for it in sources_of(crate)):
        calls |= {f"{name}!" for name in MACRO.findall(text)}
        for kind, name, block in BLOCK.findall(text):
            if name in names:
                calls |= of_each(name, OF_BLOCK[kind].findall(block))
    # Laws are stated, and not called.
    for module in set(MODULE.findall(library)) - {"laws"}:
        calls |= of_each(module, SHOWN.findall((crate / f"src/{module}.rt").read_text()))
    return calls


def calls_told(cells):
    """The names in cells of the table of public calls."""
    return {it for cell in cells for name, of_name in TOLD_CALL.findall(cell) for it in of_each(name, NAME.findall(of_name))}


def check_public_calls(report):
    """The table of public calls has a row for each library, lowest first, with what it shows and nothing else."""
    rows = tables_of((report.top / "docs/architecture.md").read_text(), PUBLIC_CALLS)
    told = {crate: calls_told(cells) for crate, *cells in rows}
    there = {it.name: it for it in libraries_of(report) if (it / "src/lib.rt").exists()}
    listed = re.findall(r"^(\w+):", (report.top / "crates.txt").read_text(), re.MULTILINE)
    in_order = [it for it in listed if it in there]
    report.expect("the table of public calls has each library, lowest first", [it[0] for it in rows] == in_order, list(told))
    for crate in in_order:
        calls, in_row = public_calls_of(there[crate]), told.get(crate, set())
        missing, unknown = sorted(calls - in_row), sorted(in_row - calls)
        report.expect(f"the table has the public calls of {crate}", in_row == calls, f"missing {missing}, unknown {unknown}")


def check_counts(report):
    """docs/testing.md has the numbers that its commands count, and those of its two tables are as many together."""
    text = (report.top / "docs/testing.md").read_text()
    told = [(what, int(count)) for what, count in tables_of(text, "| What | How many |")]
    commands = re.findall(r"^    (\S.*)$", text[: text.index("\n## ")], re.MULTILINE)
    report.expect("docs/testing.md has a command for each count", len(commands) == len(told), commands)
    for (what, count), command in zip(told, commands):
        ran = subprocess.run(["sh", "-c", command], cwd=report.top, capture_output=True, text=True)
        counted = [int(it) for it in re.findall(r"\d+", ran.stdout.splitlines()[-1] if ran.stdout else "")]
        report.expect(f"docs/testing.md counts {what}", count in counted, f"{count}, and it is one of {counted}")
    counts = dict(told)
    for head, what in (("| Crate | Tests |", "tests"), ("| Layer | Wrong bodies |", "wrong bodies")):
        together = sum(int(count) for _, count in tables_of(text, head))
        report.expect(f"the {what} of docs/testing.md, together", together == counts[what], f"{together} and {counts[what]}")
    parts = re.findall(r'^    "(\w+)": \w+\.check', (report.top / "check").read_text(), re.MULTILINE)
    told = f"for {len(ANSWERED)} other command lines"
    report.expect(f"docs/testing.md tells of memory: {told}", told in " ".join(text.split()))
    in_table = [NAME.match(part)[1] for part, *_ in tables_of(text, "| Part | Tries | For what |")]
    report.expect("docs/testing.md has each part of ./check, in order", in_table == parts, in_table)


def check_samples(report):
    """samples/README.md has a row for each sample. docs/testing.md tells how many frames their downlinks have, and how many of them
    the tests hold."""
    folders = sorted(it for it in (report.top / "samples").iterdir() if it.is_dir())
    rows = [name for name, _ in tables_of((report.top / "samples/README.md").read_text(), "| Folder | Shows |")]
    names = {it.name for it in folders}
    report.expect("samples/README.md has a row for each sample", sorted(rows) == sorted(names), names ^ set(rows))
    lines = [it / "summary.txt" for it in folders]
    lacking = [it.parent.name for it in lines if not it.is_file()]
    report.expect("each sample has the line of its run, summary.txt", not lacking, lacking)
    frames = sum(int(it.read_text().split()[1]) for it in lines if it.is_file())
    tested = (report.top / "crates/dmr_repeater_tests/src/tests/samples.rt").read_text().count("\npub static ")
    text = " ".join((report.top / "docs/testing.md").read_text().split())
    for told in (f"Their {len(folders)} downlinks have {frames:,} frames.", f"{tested} of them are also tests of `rt ci`."):
        report.expect(f"docs/testing.md tells: {told}", told in text)


def crates_above(crates_txt):
    """For each crate the others that stand on it, at whatever distance, those of tests too."""
    above = {}
    # Lowest first, so that those below are known.
    below = {}
    for name, words in re.findall(r"^(\w+):(.*)$", crates_txt, re.MULTILINE):
        below[name] = set(words.split()).union(*(below.get(it, ()) for it in words.split()))
        for it in below[name]:
            above.setdefault(it, set()).add(name)
    return above


def check_callers(report):
    """Each function and method that a library shows is named by a crate above it, in its code, its definitions or its proofs."""
    crates = report.top / "crates"
    above = crates_above((report.top / "crates.txt").read_text())
    words = {}
    for crate in (it for it in crates.iterdir() if (it / "src").is_dir()):
        files = [it for kind in ("src/**/*.rt", "specs/*.antt", "proofs/**/*.antt") for it in crate.glob(kind)]
        words[crate.name] = {word for file in files for word in re.findall(r"\w+", file.read_text())}
    for crate in (it for it in libraries_of(report) if (it / "src/lib.rt").exists()):
        named = set().union(*(words[it] for it in above.get(crate.name, ())))
        calls = {it for it in public_calls_of(crate) if re.match(r"[a-z]\w*$", it.split("::")[-1])}
        alone = {it for it in calls if it.split("::")[-1] not in named}
        report.expect(f"each public call of {crate.name} is named above it", not alone, sorted(alone))


def is_prose(line):
    """A line of a document that is neither a row of a table, a command nor what a link means: those can't be broken."""
    return not line.startswith(("|", "    ")) and not re.match(r"\[[^]]*\]: ", line)


def check_width(report):
    """No line of a source, definition, proof or script is wider than 132 columns, and none of a document's prose."""
    crates = report.top / "crates"
    files = [it for kind in ("src/**/*.rt", "specs/*.antt", "proofs/**/*.antt") for it in crates.glob(f"*/{kind}")]
    files += [it for folder in ("scripts", "bench") for it in (report.top / folder).rglob("*.py")]
    documents = [report.top / it for it in documents_of(report)]
    wide = [f"{file.relative_to(report.top)}:{at}" for file in files + documents
            for at, line in enumerate(file.read_text().splitlines(), 1)
            if len(line) > WIDTH and (file not in documents or is_prose(line))]
    report.expect(f"no line is wider than {WIDTH} columns", not wide, wide)


def docstrings_in(source):
    """The lines of a source that are docstrings, with an empty line for each other one, so that each stays where it is."""
    found = (DOCSTRING.match(line) for line in source.splitlines())
    return "\n".join(it[1] if it else "" for it in found)


def passages_of(text):
    """Where each paragraph, list item and cell of a table begins, and its text. Code and headings are none."""
    at, passage, is_item, is_fenced, passages = 0, [], False, False, []

    def end():
        if passage:
            passages.append((at, "\n".join(passage)))
            passage.clear()

    for number, line in enumerate(text.splitlines(), 1):
        if FENCE.match(line):
            end()
            is_fenced = not is_fenced
        elif is_fenced or not line.strip() or ALONE.match(line) or (not passage and INDENTED.match(line)):
            end()
        elif line.startswith("|"):
            end()
            passages += [(number, cell) for cell in CODE.sub("`code`", line).split("|")]
        else:
            if (ITEM if is_item else FIRST_ITEM).match(line):
                end()
            if not passage:
                at, is_item = number, bool(ITEM.match(line))
                line = ITEM.sub("", line)
            passage.append(line)
    end()
    return passages


def sentences_of(passage, last_word):
    """For each sentence of a passage the number of lines before it, and its words. Code is one word; code alone is no sentence."""
    # A line break inside of code moves in front of it, so that lines stay as many.
    plain = CODE.sub(lambda it: "\n" * it[0].count("\n") + "`", passage)
    plain = LINKED.sub(r"\1", plain)
    begin, words = None, []
    for word in re.finditer(r"\S+", plain):
        if re.search(r"[^\W_]|`", word[0]):
            begin = plain[: word.start()].count("\n") if begin is None else begin
            words.append(word[0])
        if last_word.search(word[0]) or not plain[word.end() :].strip():
            if any(re.search(r"[^\W_]", it) for it in words):
                yield begin, words
            begin, words = None, []


def lengths_in(text, last_word=LAST_WORD):
    """Where each sentence begins, and how many words it has."""
    return [(at + begin, len(words)) for at, passage in passages_of(text) for begin, words in sentences_of(passage, last_word)]


def too_long_in(lengths):
    return [(at, words) for at, words in lengths if words > LONGEST]


def check_counting(report):
    """What a sentence is: one with a word too many is found, wherever it stands, and no other."""
    just, over = "word " * (LONGEST - 1) + "end.", "word " * LONGEST + "end."
    open_end, more = just.rstrip("."), LONGEST + 1
    source = f"fn one() {{ // {over}\n    /// {open_end}\n    /// {just}\n}}\n//! {over}"
    for name, text, wanted in (
        ("one that is just not too long", just, []),
        ("two of them", f"{just} {just}", []),
        ("one that is too long", over, [(1, more)]),
        ("one behind a heading", f"# Title\n\n{just}\n{over}", [(4, more)]),
        ("one over many lines", over.replace(" ", "\n", 20), [(1, more)]),
        ("one that ends with its paragraph", f"{over[:-1]}\n\n{open_end}", [(1, more)]),
        ("one over a colon", f"{open_end}: {just}", [(1, 2 * LONGEST)]),
        ("one over a semicolon", f"{open_end}; {just}", [(1, 2 * LONGEST)]),
        ("three kinds of ends", f"{open_end}! {open_end}? *{just}* {just}", []),
        ("an end in brackets", f"(\"{just}\") {just}", []),
        ("a point inside a word", over.replace("word", "a.b", 1), [(1, more)]),
        ("list items", f"- {open_end}\n- {open_end}\n  - {open_end}\n1. {over}", [(4, more)]),
        ("a number that begins a line", f"status\n2. {over}", [(2, more)]),
        ("no list item", f"{open_end}\n2 {just}", [(1, 2 * LONGEST + 1)]),
        ("a list item over two lines", f"- {open_end}\n      {just}", [(1, 2 * LONGEST)]),
        ("cells", f"| {open_end} | {open_end} |", []),
        ("a cell that is too long", f"| cell | {over} |", [(1, more)]),
        ("code is one word", over.replace("word", "`a b. c | d`"), [(1, more)]),
        ("code over two lines is one word", over.replace("word word", "`a\nb`", 1), []),
        ("links have the words of their texts", over.replace("word word", "[word word](of.md)"), [(1, more)]),
        ("bold words", over.replace("word", "**word**"), [(1, more)]),
        ("marks are no words", over.replace("word", "-", 1), []),
        ("code alone is no sentence", "`code`, " * more, []),
        ("indented code is none", f"    {over}", []),
        ("fenced code is none", f"```\n{over}\n```\n{over}", [(4, more)]),
        ("what a link means is none", f"[{over}]: there.md", []),
    ):
        had = too_long_in(lengths_in(text))
        report.expect(f"sentences: {name}", had == wanted, had)
    for name, text, wanted in (
        ("docstrings", source, [(2, 2 * LONGEST), (5, more)]),
        ("one before a colon", f"/// {over[:-1]}: {just}", [(1, more)]),
        ("none over a colon", f"/// {open_end}: {just}", []),
    ):
        had = too_long_in(lengths_in(docstrings_in(text), LAST_OF_DOCSTRING))
        report.expect(f"sentences of docstrings: {name}", had == wanted, had)


def check_sentences(report):
    """No sentence of a document or of a docstring has more than 40 words. In a docstring a colon ends one too."""
    check_counting(report)
    lengths = {name: lengths_in((report.top / name).read_text()) for name in documents_of(report)}
    for source in sorted(report.top.glob("crates/*/src/**/*.rt")):
        lengths[source.relative_to(report.top)] = lengths_in(docstrings_in(source.read_text()), LAST_OF_DOCSTRING)
    count = sum(map(len, lengths.values()))
    report.expect("sentences are found", count > 5000, count)
    for name, had in lengths.items():
        told = ", ".join(f"{name}:{at} has {words} words" for at, words in too_long_in(had))
        report.expect(f"no sentence of {name} has more than {LONGEST} words", not told, told)


def check(report):
    check_links(report)
    check_files_told(report)
    check_definitions(report)
    check_promises(report)
    check_headline(report)
    check_words(report)
    check_rules(report)
    check_names(report)
    check_types(report)
    check_crates(report)
    check_picture(report)
    check_public_calls(report)
    check_counts(report)
    check_samples(report)
    check_callers(report)
    check_width(report)
    check_sentences(report)
