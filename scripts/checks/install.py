"""The script install: what it puts below a prefix stands by itself, and can be taken out. A stand-in is installed."""

import subprocess

from checks.standin import WORDS, in_trees

SHARED = "man/man1/dmrgate.1", "bash-completion/completions/dmrgate", "zsh/site-functions/_dmrgate"
BRIDGE = "bin/dmrgate-bridge"
# What is for programs that call dmrgate, with what the stand-in makes of it.
LIBRARIES = {"lib/libdmrgate.a": "low\ndmr_c\nmemory\n", "lib/libdmrgate.so": "shared\nlow\ndmr_c\nmemory\n"}
TEXTS = {"include/dmrgate.h": "dmrgate.h", "lib/pkgconfig/dmrgate.pc": "dmrgate.pc"}


def install(tree, *words, **environment):
    """Runs the script install."""
    return subprocess.run([tree.top / "install", *words], **tree.how(**environment), capture_output=True, text=True)


def files_below(prefix):
    return {str(it.relative_to(prefix)) for it in prefix.rglob("*") if not it.is_dir()}


def expect_commands(tree, name, command):
    """Each command is done by the program that has it, with no repository and no kit."""
    for words, program in (
        ((), "dmrgate"),
        (WORDS, "dmrgate"),
        (("--help",), "dmrgate"),
        (("help",), "dmrgate"),
        (("help", "run", "show"), "dmrgate"),
        (("-", "show"), "dmrgate"),
        (("show", "*", "x  y", ""), "dmrgate_tools"),
        (("help", "show"), "dmrgate_tools"),
    ):
        wanted = tree.printed(*words, program=program)
        tree.top.rename(tree.folder / "away")
        ran = subprocess.run([command, *words], cwd="/", capture_output=True, text=True)
        (tree.folder / "away").rename(tree.top)
        tree.expect(f"{name}: {words}", (ran.returncode, ran.stdout, ran.stderr) == (0, wanted, ""), ran)


def check_install(tree):
    """What is installed does each command, and is found through links."""
    prefix = tree.folder / "a prefix"
    for it in SHARED:
        tree.put(f"share/{it}", f"{it}\n")
    tree.put("share/man/man1/.dmrgate.1.swp", "")
    for it in ("dmrgate-bridge", "dmrgate-bridge~", "radio", "parts/of_radio.py"):
        tree.put(f"share/bridge/{it}", "a script\n")
    ran = install(tree, prefix)
    told = ran.stdout.splitlines()
    tree.expect("installed", ran.returncode == 0 and told[:1] == [f"dmrgate is in {prefix}/bin"], ran)
    tree.expect("how to get it on the path", told[1:] == [f"which isn't on the path: PATH='{prefix}/bin':$PATH"], ran)
    wanted = {"bin/dmrgate", BRIDGE, *(f"share/{it}" for it in SHARED), *LIBRARIES, *TEXTS}
    wanted |= {f"libexec/dmrgate/{it}" for it in ("dmrgate", "dmrgate_tools", "installed")}
    tree.expect("what is there", files_below(prefix) == wanted, files_below(prefix) ^ wanted)
    same = all((prefix / "share" / it).read_text() == f"{it}\n" for it in SHARED)
    files = "bin/dmrgate", BRIDGE, "libexec/dmrgate/dmrgate", f"share/{SHARED[0]}"
    modes = [(prefix / it).stat().st_mode & 0o777 for it in files]
    tree.expect("the texts, and who may do what", same and modes == [0o755, 0o755, 0o755, 0o644], modes)
    tree.expect("the script is as it was", (prefix / BRIDGE).read_text() == "a script\n")
    made = {it: (prefix / it).read_text() for it in LIBRARIES}
    tree.expect("the libraries", made == LIBRARIES, made)
    same = all((prefix / it).read_text() == (tree.top / "share/c" / name).read_text() for it, name in TEXTS.items())
    tree.expect("what is read of the libraries", same)
    expect_commands(tree, "installed", prefix / "bin/dmrgate")
    link, second = tree.folder / "link", tree.folder / "second"
    link.symlink_to(prefix / "bin/dmrgate")
    second.symlink_to("link")
    expect_commands(tree, "through a link to a link", second)
    prefix.rename(tree.folder / "another prefix")
    expect_commands(tree, "at another place", tree.folder / "another prefix/bin/dmrgate")


def check_again(tree):
    """An install over an earlier one is of the new sources, and nothing is left of the old one."""
    prefix = tree.folder / "prefix"
    tree.put("share/man/man1/dmrgate.1", "manual\n")
    tree.put("share/fish/vendor_completions.d/dmrgate.fish", "fish\n")
    install(tree, prefix)
    before = files_below(prefix)
    ran = install(tree, prefix, PATH=f"{prefix}/bin:{tree.how()['env']['PATH']}")
    tree.expect("installed twice", (ran.returncode, ran.stdout, ran.stderr) == (0, f"dmrgate is in {prefix}/bin\n", ""), ran)
    tree.expect("installed twice is as once", files_below(prefix) == before, files_below(prefix) ^ before)
    tree.edit("low", "newer\n")
    (tree.top / "share/fish/vendor_completions.d/dmrgate.fish").unlink()
    tree.put("share/man/man1/dmrgate.1", "a newer manual\n")
    install(tree, prefix)
    expect_commands(tree, "a newer one", prefix / "bin/dmrgate")
    gone = before - files_below(prefix)
    tree.expect("what the newer one hasn't is gone", gone == {"share/fish/vendor_completions.d/dmrgate.fish"}, gone)
    tree.expect("and so is its folder", not (prefix / "share/fish").exists())
    told = set((prefix / "libexec/dmrgate/installed").read_text().splitlines())
    tree.expect("what is told to be there", told == files_below(prefix) - {"libexec/dmrgate/installed"}, told)
    manual = (prefix / "share/man/man1/dmrgate.1").read_text()
    tree.expect("the newer manual", manual == "a newer manual\n", manual)


def check_remove(tree):
    """What was installed is taken out, and nothing else."""
    prefix = tree.folder / "prefix"
    tree.put("share/man/man1/dmrgate.1", "manual\n")
    tree.put("share/bridge/dmrgate-bridge", "a script\n")
    ran = install(tree, "--remove", prefix)
    is_told = ran.stderr == f"install: there is no dmrgate that was put below {prefix}\n"
    tree.expect("nothing to remove", (ran.returncode, ran.stdout) == (1, "") and is_told and not prefix.exists(), ran)
    install(tree, prefix)
    for it in ("bin/stranger", "share/man/man1/stranger.1"):
        tree.put(prefix / it, "a stranger's\n")
    ran = install(tree, "--remove", prefix)
    tree.expect("removed", (ran.returncode, ran.stdout, ran.stderr) == (0, f"dmrgate is gone from {prefix}\n", ""), ran)
    left = files_below(prefix)
    tree.expect("what others put there is left", left == {"bin/stranger", "share/man/man1/stranger.1"}, left)
    tree.expect("folders of its own are gone", not (prefix / "libexec").exists())
    ran = install(tree, "--remove", prefix)
    tree.expect("removed twice", (ran.returncode, ran.stdout) == (1, "") and "there is no dmrgate" in ran.stderr, ran)


def check_linked_folder(tree):
    """A folder below the prefix may be a link to another one."""
    prefix, programs = tree.folder / "prefix", tree.folder / "elsewhere/programs"
    programs.mkdir(parents=True)
    prefix.mkdir()
    (prefix / "bin").symlink_to(programs)
    install(tree, prefix)
    expect_commands(tree, "in a folder that is a link", prefix / "bin/dmrgate")
    ran = install(tree, "--remove", prefix)
    left = (ran.returncode, ran.stderr, files_below(prefix), [*programs.iterdir()], (prefix / "bin").is_symlink())
    tree.expect("removed from a folder that is a link", left == (0, "", set(), [], True), left)


def check_home(tree):
    """Where no prefix is given, it is .local in the user's folder."""
    home = tree.folder / "home"
    home.mkdir()
    ran = install(tree, HOME=str(home))
    tree.expect("installed for a user", ran.returncode == 0 and (home / ".local/bin/dmrgate").is_file(), ran)
    ran = install(tree, "--remove", HOME=str(home))
    tree.expect("removed for a user", ran.returncode == 0 and not files_below(home), ran)


def check_refused(tree):
    """What can't be installed is told in a line, and words that it doesn't know by its usage."""
    prefix = tree.folder / "prefix"
    tree.put(prefix, "")
    ran = install(tree, prefix)
    is_told = ran.stderr.splitlines()[-1:] and ran.stderr.splitlines()[-1].startswith(f"install: {prefix}")
    tree.expect("a prefix that is no folder", ran.returncode == 1 and is_told and "Traceback" not in ran.stderr, ran)
    tree.does("before", "low", "exit 1")
    tree.edit("low", "wrong\n")
    ran = install(tree, tree.folder / "other")
    is_so = (ran.returncode, ran.stdout) == (1, "") and "low is not proved" in ran.stderr
    tree.expect("nothing is installed that isn't built", is_so and not (tree.folder / "other").exists(), ran)
    for words in (["--help"], ["--remove", "--remove"], ["one", "two"], [""], ["--remove", "one", "two"]):
        ran = install(tree, *words)
        tree.expect(f"words {words}", (ran.returncode, ran.stdout) == (1, "") and "./install [PREFIX]" in ran.stderr, ran)


def check(report):
    in_trees(report, [check_install], [check_again], [check_remove], [check_linked_folder], [check_home], [check_refused])
