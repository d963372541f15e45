"""What the Python commands of tools/ and tests/ share: where things stand, which files scripts write, edits, and what the prover says of a changed crate."""
import argparse
import collections
import pathlib
import platform
import re
import shutil
import subprocess
import sys
import tempfile

TOP = pathlib.Path(__file__).resolve().parent.parent
CRATES = TOP / "crates"
# The targets of tools/library: this machine's own, those of machines whose pointers have 64 bits, and of 32 bits.
OWN = {"x86_64": "x86-64"}.get(platform.machine(), platform.machine())
WIDE = ("x86-64", "x86-64-v3", "aarch64")
NARROW = ("armhf", "cortex-m3", "wasm32")
# The sources that scripts of tools/ write.
GENERATED = {"field_tables/halves.rt", "field_tables/logtables.rt", "field_tables/antilogs.rt", "poly_values/tables.rt", "corrector_generator/rows8.rt", "corrector_generator/rows5.rt", "corrector_remainder/raised.rt", "corrector_syndromes/powers.rt"}


def command(text, status):
    """The reader of a command's words: its help is the text and then what its exit status says."""
    return argparse.ArgumentParser(description=text, epilog=f"Exit status: {status}; 2 unknown words.", formatter_class=argparse.RawDescriptionHelpFormatter, allow_abbrev=False)


def say(line):
    """One line on standard error: what is being done, and how far it is."""
    print(f"{pathlib.Path(sys.argv[0]).name}: {line}", file=sys.stderr, flush=True)


def version():
    """The version, as include/locator.h has it."""
    return re.search(r'^#define LOCATOR_VERSION "(.*)"$', (TOP / "include" / "locator.h").read_text(), re.M).group(1)


Crate = collections.namedtuple("Crate", "kind uses")


def crates():
    """The crates, in the order of crates.txt, whose lines are `NAME: LIBRARY ..`, and `NAME staticlib: LIBRARY ..` of a static library: their kind (library, staticlib
    or program) and the libraries that they use."""
    found = {}
    for line in (TOP / "crates.txt").read_text().splitlines():
        row = re.fullmatch(r"([a-z]\w*)( +staticlib)? *:(.*)", line.partition("#")[0].rstrip())
        if row:
            kind = "staticlib" if row[2] else "program" if (CRATES / row[1] / "src" / "main.rt").exists() else "library"
            found[row[1]] = Crate(kind, row[3].replace(",", " ").split())
    return found


def listed():
    """The crates, in the order of crates.txt."""
    return list(crates())


def is_generated(path):
    return f"{path.parts[-3]}/{path.name}" in GENERATED


def edits_of(crate, gate=True):
    """The must-fail edits of a crate: those of tests/edits, and those of the gate."""
    folders = [TOP / "tests" / "edits" / crate] + [CRATES / crate / "must-fail"] * gate
    return [path for folder in folders for path in sorted(folder.glob("*.edit"))]


def edited(crate, edit):
    """The files that an edit changes, as rt reads one (a 'file:' line holds for the 'old:' and 'new:' pairs after it), and what does not match."""
    changed, wrong, path, old = {}, [], None, None
    for line in edit.read_text().splitlines():
        if line.startswith("file: "):
            path = pathlib.Path("crates") / crate / line[6:]
            if not (TOP / path).is_file():
                return {}, [f"there is no {path}"]
            changed.setdefault(path, (TOP / path).read_text())
        elif line.startswith("old: "):
            old = line[5:]
        elif line.startswith("new:"):
            if changed[path].count(old) != 1:
                wrong.append(f"'{old}' stands {changed[path].count(old)} times in {path}")
            changed[path] = changed[path].replace(old, line[4:].removeprefix(" "))
    return changed, wrong


def copied(tree):
    """The tree that is named, or a fresh copy of this one in a temporary folder. What `rt check` keeps here it takes over there, so no proof is made twice."""
    if tree:
        return pathlib.Path(tree)
    fresh = pathlib.Path(tempfile.mkdtemp(prefix="umelihano-")) / "tree"
    say(f"copies the tree to {fresh}")
    shutil.copytree(TOP, fresh, ignore=shutil.ignore_patterns("target", ".git", "out"))
    (fresh / ".git").mkdir()  # the top of a repository
    return fresh


def take_targets(args, choices=WIDE):
    """Lets a command take `--target`: opt.target is a list of these."""
    args.add_argument("--target", nargs="+", choices=choices, default=[OWN], metavar="T", help=f"of tools/library, one or several: {', '.join(choices)} (default: this machine's own)")


def built(command, *words):
    """A command of tools/ that builds something; where it fails, this run ends as it does."""
    made = subprocess.run([TOP / "tools" / command, *words], stdout=subprocess.DEVNULL)
    if made.returncode:
        sys.exit(made.returncode)


def running(target, name, *words):
    """The words that run a program of a target."""
    return [TOP / "tools" / "run", "--target", target, name, *words]


def asked(tree, crate, changed):
    """What the toolchain says of a crate in which some files are changed (path to text), and its first error; they are put back."""
    kept = {path: (tree / path).read_text() for path in changed}
    try:
        for path, text in changed.items():
            (tree / path).write_text(text)
        run = subprocess.run(["rt", "check"], cwd=tree / "crates" / crate, stdout=subprocess.PIPE, stderr=subprocess.STDOUT, text=True)
    finally:
        for path, text in kept.items():
            (tree / path).write_text(text)
    errors = [line for line in run.stdout.splitlines() if re.search(r": error|\berror\b.*: |is not admitted|: not proved", line)]
    first = errors[0].replace(f"{tree}/", "") if errors else ""
    if run.returncode == 0:
        return "SURVIVED", first
    # what stops before any proof is of the front end, and shows nothing of a contract
    if any(re.search(r"^error(\[|:)|: error\[", line) for line in errors):
        return "no code", first
    return ("refused" if run.returncode in (1, 3) else "no answer"), first
