#!/usr/bin/env python3
"""build.py: proves static libraries and programs of crates/ and builds them for x86-64 by the toolchain (its compiler for every x86-64, not only for those that
its rt takes by default), where they are not built from these sources:

  target/staticlib/libCRATE.a    of a static library, the toolchain's archive
  target/obj/CRATE.o             of a program, the toolchain's object
  target/bin/CRATE               of a program, linked as the toolchain links it
  target/module/CRATE.bc         the LLVM module that the toolchain's compiler was given, from which tools/targets.sh builds for other machines
  target/module/CRATE.of         the sum of all that these are made of

The libraries below are those that `rt check` keeps in their out/, which is run for the crate first; or, right after `rt ci` passed here, those that it left there."""
import argparse
import hashlib
import json
import os
import pathlib
import re
import shutil
import subprocess
import sys
import tempfile
from concurrent.futures import ThreadPoolExecutor

sys.dont_write_bytecode = True
from repository import CRATES, TOP, command, crates, say

MADE = TOP / "target"
# What `rt ci` left in the out/ of the libraries, by crate: the sum of the crate's content, and of the library.
LEFT = MADE / "libraries.json"
# The memory that a check from nothing may take, in bytes.
ROOM = 4_000_000_000
# The processor: every x86-64.
CPU = ["--target", "x86_64-unknown-linux-gnu", "--cpu", "x86-64"]


def free():
    """The memory that is free, in bytes."""
    found = re.search(r"MemAvailable: +(\d+)", pathlib.Path("/proc/meminfo").read_text())
    return 1024 * int(found[1])


def kit():
    """Where the toolchain stands: `rt doc` prints the path of a page at its top."""
    return pathlib.Path(subprocess.run(["rt", "doc"], stdout=subprocess.PIPE, check=True, text=True).stdout.strip()).parent


def below(crate, every, found=None):
    """The crates of this repository that a crate stands on, each behind those that it uses."""
    found = [] if found is None else found
    for name in every[crate].uses:
        if name in every and name not in found:
            below(name, every, found)
            found.append(name)
    return found


def files_of(crate):
    return sorted(path for part in ("src", "specs", "proofs") for path in (CRATES / crate / part).rglob("*") if path.is_file())


def own(crate, every):
    """The sum of a crate's line in crates.txt and its files."""
    files = [(str(path.relative_to(CRATES)), hashlib.sha256(path.read_bytes()).hexdigest()) for path in files_of(crate)]
    return hashlib.sha256(repr((every[crate].kind, every[crate].uses, files)).encode()).hexdigest()


def content(crate, every, version):
    """The sum of all that a crate is made of: the toolchain, and what it and the crates below hold."""
    return hashlib.sha256(repr([version, CPU, [(name, own(name, every)) for name in [*below(crate, every), crate]]]).encode()).hexdigest()


def rlib(crate):
    return CRATES / crate / "out" / "rlib" / f"{crate}.rlib"


def sum_of(crate):
    """The sum of a built library: its file `format` has those of the others."""
    try:
        return hashlib.sha256((rlib(crate) / "format").read_bytes()).hexdigest()
    except OSError:
        return ""


def note(every, since):
    """Notes which libraries `rt ci`, which began then and passed, left in out/: those that it did not give back to `rt check`, of files that nobody touched since."""
    left = {}
    for crate in every:
        is_kept = (CRATES / crate / "out" / "rlib" / "stamp").exists()
        if sum_of(crate) and not is_kept and all(path.stat().st_mtime < since for path in [TOP / "crates.txt", *files_of(crate)]):
            left[crate] = [own(crate, every), sum_of(crate)]
    MADE.mkdir(exist_ok=True)
    LEFT.write_text(json.dumps(left))


def are_left(names, every):
    """Whether the libraries of these crates are those that `rt ci` left, of what the crates hold now."""
    try:
        left = json.loads(LEFT.read_text())
    except (OSError, ValueError):
        return False
    return all(left.get(name) == [own(name, every), sum_of(name)] for name in names)


def view(folder, tools):
    """The toolchain's LLVM in a folder, by links, with a clang that keeps the module that it is given, as module.bc, and goes on as ever."""
    there = folder / "toolchain"
    (there / "bin").mkdir(parents=True)
    (there / "lib").symlink_to(tools / "lib")
    for file in (tools / "bin").iterdir():
        if file.name != "clang":
            (there / "bin" / file.name).symlink_to(file.resolve() if file.resolve().name != "clang" else file)
    clang = there / "bin" / "clang"
    clang.write_text(f'#!/bin/sh\nfor word; do case $word in *.bc) cp -- "$word" "{folder}/module.bc" ;; esac; done\nexec "{tools}/bin/clang" "$@"\n')
    clang.chmod(0o755)
    return there


def told(words, folder, shown):
    """Runs a command of the toolchain; where it fails, its first errors are told and this run ends with 1. What is said meanwhile is shown where it begins with `shown`."""
    lines = []
    with subprocess.Popen(words, cwd=folder, stdin=subprocess.DEVNULL, stdout=subprocess.PIPE, stderr=subprocess.STDOUT, text=True, errors="replace") as run:
        for line in run.stdout:
            lines.append(line)
            if line.startswith(shown):
                sys.stderr.write(line)
    if run.returncode:
        sys.stderr.write("".join([line for line in lines if re.search(r"\berror\b|: not proved|: no proof|it is not proved", line)][:10] or lines[-30:]))
        say(f"{folder.name} is not proved, or not built")
        sys.exit(1)
    return lines


def build(crate, every, at, sum, jobs):
    """Proves and builds one crate."""
    say(f"proves {crate} and builds it")
    folder, libraries = CRATES / crate, below(crate, every)
    # what rt ci left was proved from nothing, and so is this crate over it; else over what rt check keeps
    keeps = [] if are_left(libraries, every) else ["--incremental", "out/incremental"]
    if keeps:
        told(["rt", "check"], folder, "rt: ")
    (folder / "out").mkdir(exist_ok=True)
    words = [at / "bin" / "rattle", "build", "--crate-name", crate, "src/main.rt" if every[crate].kind == "program" else "src/lib.rt"]
    for name in ["std", *every[crate].uses]:
        words += ["--extern", f"{name}={rlib(name) if name in every else at / 'rlibs' / f'{name}.rlib'}"]
    for place in [at / "rlibs", *(rlib(name).parent for name in libraries)]:
        words += ["-L", f"dependency={place}"]
    words += ["--antt-project", at / "rattle/logic/antt-project.json", "--logic-built", at / "logic_built", "--jobs", str(jobs)]
    words += [*CPU, "--backend", "llvm", *keeps, *(["--crate-type", "staticlib"] if every[crate].kind == "staticlib" else [])]
    with tempfile.TemporaryDirectory() as room:
        room = pathlib.Path(room)
        made = room / "made"
        lines = told([*words, "--toolchain", view(room, at / "toolchain"), "-o", made], folder, "rt: ")
        if not any(line.startswith("logic=proved ") for line in lines):
            say(f"{crate}: the toolchain does not say that it is proved")
            sys.exit(1)
        of = MADE / "module" / f"{crate}.of"
        of.unlink(missing_ok=True)
        for part in ("module", "staticlib", "obj", "bin"):
            (MADE / part).mkdir(parents=True, exist_ok=True)
        shutil.copyfile(room / "module.bc", MADE / "module" / f"{crate}.bc")
        shutil.copyfile(made, archive_of(crate) if every[crate].kind == "staticlib" else object_of(crate))
        if every[crate].kind == "program":
            link = [at / "bin" / "rattle-link", *CPU[:2], "--toolchain", at / "toolchain", "-o", program_of(crate), object_of(crate)]
            told([*link, at / "c/libos_c.a", at / "c/liblibc_c.a"], TOP, "rt: ")
        of.write_text(sum + "\n")


def archive_of(crate):
    return MADE / "staticlib" / f"lib{crate}.a"


def object_of(crate):
    return MADE / "obj" / f"{crate}.o"


def program_of(crate):
    return MADE / "bin" / crate


def is_built(crate, every, sum):
    """Whether all of it is there, made of this."""
    files = [archive_of(crate)] if every[crate].kind == "staticlib" else [object_of(crate), program_of(crate)]
    of = MADE / "module" / f"{crate}.of"
    return of.exists() and of.read_text().strip() == sum and all(path.exists() for path in [MADE / "module" / f"{crate}.bc", *files])


def main():
    every = crates()
    buildable = [name for name, crate in every.items() if crate.kind in ("program", "staticlib")]
    words = command(__doc__, "0 built; 1 not proved or not compiled")
    words.add_argument("crates", nargs="*", metavar="CRATE", help="a static library or a program of crates/")
    words.add_argument("--after-ci", type=float, metavar="TIME", help=argparse.SUPPRESS)
    opt = words.parse_args()
    for name in opt.crates:
        if name not in buildable:
            words.error(f"no static library and no program of crates/: {name}")
    if opt.after_ci:
        note(every, opt.after_ci)
    version = subprocess.run(["rt", "version"], stdout=subprocess.PIPE, check=True, text=True).stdout.strip()
    sums = {name: content(name, every, version) for name in dict.fromkeys(opt.crates)}
    left = [name for name, sum in sums.items() if not is_built(name, every, sum)]
    # over what rt ci left several at a time, as memory holds them; over what rt check keeps one after the other
    cores, apart = len(os.sched_getaffinity(0)), all(are_left(below(name, every), every) for name in left)
    lanes = max(1, min(cores, len(left), free() // ROOM)) if apart else 1
    with ThreadPoolExecutor(lanes) as pool:
        made = [pool.submit(build, name, every, kit(), sums[name], max(1, min(4, cores) // lanes)) for name in left]
        # a failure ends with 1, which ends this run too
        for one in made:
            one.result()


if __name__ == "__main__":
    main()
