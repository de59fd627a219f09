"""Builds what tools/dist packs."""

import io
import re
import shutil
import subprocess
import sys
import tarfile
from concurrent.futures import ThreadPoolExecutor
from pathlib import Path

from shared.crates import listed
from testing.crates import Crates
from testing.pool import jobs_at_once
from testing.programs import Builder

TOP = Path(__file__).resolve().parent.parent.parent
EXPORTS = "wasm_c_exports"
READ = ["crates", "crates.txt", "HANDLES"]
# It reads a function body, has no options, and is for tests.
LEFT_OUT = ["wasm_dump"]
# A function of C whose contract a proof assumes, and the verdict, in the output of `rattle build --list-axioms`.
VERDICT = re.compile(r"^(?:  (\S+)   reached|(logic=proved .*))$", re.M)


class Failed(Exception):
    """A build failed."""


class Built:
    """What a build made. `said` has the last lines of `rt ci`, `verdict` the lines about the library for C."""

    def __init__(self, programs, archive, libraries=None, said=(), verdict=()):
        self.programs, self.archive, self.libraries = programs, archive, libraries or {}
        self.said, self.verdict = list(said), list(verdict)


def identity_of(kit):
    return "".join((kit / name).read_text(encoding="utf-8") for name in ("KIT-ID", "WHAT"))


def notices_of(kit, crates):
    """Returns the kit's libraries, and the files of their licences by name."""
    names = dict.fromkeys(it for name in libraries_of(crates) for it in crates.of_kit(name) if it != "std")
    files = {f"{name}-{path.name}": path for name in names for path in sorted((kit / "rattle" / name).glob("LICENSE*"))}
    return list(names), files


def programs_of(crates):
    is_program = lambda name: (crates.folder(name) / "src/main.rt").exists() and name not in LEFT_OUT
    return [name for name in crates.uses if is_program(name) and not name.startswith("wasm_tests_")]


def libraries_of(crates):
    every = [it for name in [*programs_of(crates), EXPORTS] for it in crates.below(name)]
    return sorted(dict.fromkeys(every), key=lambda name: (len(crates.below(name)), name))


def commit_of(top):
    """Returns the commit of a checkout, and the files that differ from it."""
    git = lambda *words: subprocess.run(["git", "-C", top, *words], capture_output=True, text=True, check=True).stdout
    return git("rev-parse", "HEAD").strip(), git("status", "--porcelain").splitlines()


def lines_of(text, names):
    return "".join(f"{line}\n" for line in text.splitlines() if listed(line).keys() & set(names))


def export(top, commit, folder):
    """Writes the packed crates of a commit into a folder."""
    packed = subprocess.run(["git", "-C", top, "archive", commit, *READ], capture_output=True, check=True).stdout
    with tarfile.open(fileobj=io.BytesIO(packed)) as it:
        it.extractall(folder)
    crates = Crates(folder)
    names = [*libraries_of(crates), *programs_of(crates), EXPORTS]
    for crate in (folder / "crates").iterdir():
        shutil.rmtree(crate / "must-fail" if crate.name in names else crate, ignore_errors=True)
    listed = folder / "crates.txt"
    listed.write_text(lines_of(listed.read_text(encoding="utf-8"), names), encoding="utf-8")
    return Crates(folder)


def prove(folder, log):
    last = []
    with open(log, "w", encoding="utf-8") as out:
        how = {"cwd": folder, "stdin": subprocess.DEVNULL, "stdout": subprocess.PIPE, "stderr": subprocess.STDOUT}
        with subprocess.Popen(["rt", "ci"], text=True, errors="replace", **how) as ran:
            for line in ran.stdout:
                out.write(line)
                if line.startswith("rt: "):
                    print(line, end="", flush=True)
                last = [*last[-1:], line.rstrip("\n")]
    if ran.returncode or not re.fullmatch(r"\d+ passed, 0 failed", last[-1]):
        raise Failed(f"rt ci failed; {log} has its output")
    return last


def link_words(kit, crates, name, rlib_of):
    """Returns the words for `rattle`. `rlib_of` gives a library's folder."""
    words = []
    for it in crates.of_kit(name):
        words += ["--extern", f"{it}={kit}/rlibs/{it}.rlib"]
    for it in (it for it in crates.uses[name] if it in crates.uses):
        words += ["--extern", f"{it}={rlib_of(it)}"]
    folders = dict.fromkeys([kit / "rlibs", *[rlib_of(it).parent for it in crates.below(name)]])
    words += [it for folder in folders for it in ("-L", f"dependency={folder}")]
    words += ["--antt-project", kit / "rattle/logic/antt-project.json", "--logic-built", kit / "logic_built"]
    return [*words, "--links", f"{name}="]


def build_proved(kit, crates, name, rlib_of, out):
    """Proves and compiles over built libraries. Returns the output of `rattle`."""
    is_program = (crates.folder(name) / "src/main.rt").exists()
    words = [kit / "bin/rattle", "build", "--crate-name", name, "src/main.rt" if is_program else "src/lib.rt"]
    words += link_words(kit, crates, name, rlib_of)
    words += [] if is_program else ["--crate-type", "staticlib"]
    words += ["--toolchain", kit / "toolchain", "--backend", "llvm", "--list-axioms", "--empty-contracts", "-o", out]
    # (the verdict and the axioms are on standard error)
    how = {"cwd": crates.folder(name), "stdin": subprocess.DEVNULL, "stdout": subprocess.PIPE, "stderr": subprocess.STDOUT}
    ran = subprocess.run([str(it) for it in words], text=True, errors="replace", **how)
    if ran.returncode or not re.search(r"^logic=proved ", ran.stdout, re.M):
        raise Failed(f"{name} is not proved over the libraries:\n{ran.stdout[-4000:]}")
    return ran.stdout


def verdict_of(output):
    return [f"assumed: {reached}" if reached else verdict for reached, verdict in VERDICT.findall(output)]


def link_program(kit, compiled, program):
    words = [kit / "bin/rattle-link", "--target", "x86_64-unknown-linux-gnu", "--toolchain", kit / "toolchain"]
    words += ["-o", program, compiled, kit / "c/libos_c.a", kit / "c/liblibc_c.a"]
    subprocess.run([str(it) for it in words], stdout=subprocess.DEVNULL, check=True)


def proved(kit, commit, folder, log):
    crates = export(TOP, commit, folder)
    said = prove(folder, log)
    out_of = lambda name: crates.folder(name) / "out"
    libraries = {name: out_of(name) / "rlib" / f"{name}.rlib" for name in libraries_of(crates)}
    archive = folder / "libwasm_c.a"
    print(f"dist: proving {EXPORTS} again, to compile it", flush=True)
    verdict = verdict_of(build_proved(kit, crates, EXPORTS, libraries.get, archive))
    programs = {name: out_of(name) / name for name in programs_of(crates)}
    lost = [path for path in [*programs.values(), *libraries.values()] if not path.exists()]
    if lost:
        raise Failed(f"rt ci passed, and left no {lost[0]}")
    return Built(programs, archive, libraries, said, verdict)


def unproved(kit, folder):
    crates = Crates(TOP)
    builder = Builder(kit, crates, folder / "scratch", folder / "programs", plain=True)
    names = programs_of(crates)
    print(f"dist: building {', '.join(names)} and libwasm_c.a without proofs", flush=True)
    with ThreadPoolExecutor(jobs_at_once()) as pool:
        library = pool.submit(build_unproved_library, folder)
        programs = dict(zip(names, pool.map(lambda name: builder.build(name)[1], names)))
        return Built(programs, library.result())


def build_unproved_library(folder):
    words = [sys.executable, "-B", TOP / "tools/unproved_library.py", folder]
    ran = subprocess.run(words, capture_output=True, text=True)
    if ran.returncode:
        raise Failed(ran.stderr or ran.stdout)
    return folder / "libwasm_c.a"
