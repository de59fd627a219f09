"""Uses an installed dist/ in an empty folder, without `rt` on the PATH."""

import os
import re
import shutil
import subprocess
import sys
import tempfile
import textwrap
from pathlib import Path

from packing import installed, manual, package, shared_library, texts
from packing.builds import TOP

COMMANDS = ["cc", "cargo", "rustc", "rustup", "pkg-config", "cmake", "make", "tar", "ld", "as"]
BODY = bytes([0x00, 0x01, 0x0B])
LISTED = "1 Nop\n2 End\n"
MANIFEST, CMAKE = texts.packing("trial.toml"), texts.packing("trial.cmake.txt")
MAIN = texts.packing("trial.rs")


class Failed(Exception):
    """Something that was tried doesn't work."""


def path_without_rt(folder):
    """Returns a PATH without the kit's folder, with links to its compilers."""
    folder.mkdir()
    for name in COMMANDS:
        if found := shutil.which(name):
            (folder / name).symlink_to(found)
    places = [it for it in os.environ["PATH"].split(":") if not any((Path(it) / name).exists() for name in ("rt", "rattle"))]
    return ":".join([str(folder), *places])


def ran(words, cwd, env, wanted=None):
    """Returns a command's output. Fails if that is not `wanted`."""
    print("dist: $", " ".join(str(it) for it in words), flush=True)
    done = subprocess.run([str(it) for it in words], cwd=cwd, env=env, stdin=subprocess.DEVNULL, capture_output=True, text=True)
    if done.returncode:
        raise Failed(f"{words[0]} failed:\n{done.stdout[-2000:]}{done.stderr[-2000:]}")
    if wanted is not None and done.stdout != wanted:
        raise Failed(f"{words[0]} printed\n{done.stdout}in place of\n{wanted}")
    return done.stdout


def dead_links(prefix):
    """Returns the relative links of installed pages that lead to no file."""
    for page in sorted(prefix.rglob("*.md")):
        for found in texts.LINK.finditer(page.read_text(encoding="utf-8")):
            if found[2] and not re.match(r"[a-z]+:", found[2]) and not (page.parent / found[2]).exists():
                yield f"{page.relative_to(prefix)}: {found[0]}"


def page_of(prefix, name):
    """Returns a page's path. An unpacked release has some in its folder."""
    return prefix / name if (prefix / name).exists() else prefix / installed.DOC / name


def try_tree(prefix, env):
    if dead := list(dead_links(prefix)):
        raise Failed("links that lead nowhere:\n" + "\n".join(dead))
    ran(["sha256sum", "--check", "--quiet", page_of(prefix, installed.SUMS.name)], prefix, env)


def try_uninstalling(prefix):
    (prefix / "mine").write_text("kept", encoding="utf-8")
    installed.uninstall(prefix)
    if left := sorted(str(it.relative_to(prefix)) for it in prefix.rglob("*") if it.name != "mine"):
        raise Failed(f"left after --uninstall: {left}")


def try_programs(prefix):
    for program in sorted((prefix / "bin").iterdir()):
        words = [sys.executable, "-B", TOP / "tools/cases.py", "--program", program, program.name]
        print(ran(words, TOP, os.environ), end="")


def try_examples(prefix, folder, env):
    """Runs the examples of the man pages, over a module."""
    env = {**env, "PATH": f"{prefix / 'bin'}:{env['PATH']}"}
    for program in sorted((prefix / "bin").iterdir()):
        for command, _ in manual.examples(program.name):
            shutil.copyfile(TOP / "crates/wasm_compact/data/padded.wasm", folder / "module.wasm")
            ran(["sh", "-euc", command], folder, env)


def block_of(prefix, language):
    """Returns the first block of code in this language in the installed README."""
    page = page_of(prefix, "README.md").read_text(encoding="utf-8")
    return re.search(rf"^```{language}\n(.*?)^```", page, re.M | re.S)[1].replace("PREFIX", str(prefix))


def try_callers(prefix, folder, env):
    """Runs the commands of the page CALLERS.md in a copy of its folder, and compares the output that it shows."""
    here = shutil.copytree(prefix / installed.DOC, folder / "callers")
    env = {**env, "prefix": str(prefix), "PKG_CONFIG_PATH": str(prefix / "lib/pkgconfig")}
    page = (here / "CALLERS.md").read_text(encoding="utf-8")
    for command, shown in re.findall(r"^```sh\n(.*?)^```\n(?:\nprints\n\n((?:    [^\n]*\n)+))?", page, re.M | re.S):
        if "cargo " not in command or shutil.which("cargo", path=env["PATH"]):
            ran(["bash", "-euc", command], here, env, textwrap.dedent(shown) or None)


def try_c(prefix, folder, env):
    env = {**env, "PKG_CONFIG_PATH": str(prefix / "lib/pkgconfig")}
    flags = ran(["pkg-config", "--cflags", "--libs", "wasm_operators"], folder, env).split()
    for source in sorted((prefix / installed.DOC).glob("*.c")):
        ran(["cc", "-std=c99", "-Wall", "-Werror", "-o", source.stem, source, *flags], folder, env)
    (folder / "list").unlink()
    ran(["bash", "-euc", block_of(prefix, "sh")], folder, {**env, "prefix": str(prefix)})
    ran([folder / "list", "body"], folder, env, LISTED)


def try_shared(prefix, folder, env):
    if not (prefix / "lib" / shared_library.NAME).exists():
        return
    words = ["cc", "-std=c99", f"-I{prefix}/include", "-o", "by_shared", prefix / installed.DOC / "list.c"]
    ran([*words, f"-L{prefix}/lib", f"-Wl,-rpath,{prefix}/lib", "-lwasm_operators"], folder, env)
    ran([folder / "by_shared", "body"], folder, env, LISTED)


def try_cmake(prefix, folder, env):
    (folder / "cmake").mkdir()
    text = CMAKE.format(source=prefix / installed.DOC / "list.c", use=block_of(prefix, "cmake"))
    (folder / "cmake/CMakeLists.txt").write_text(text, encoding="utf-8")
    ran(["cmake", "-S", "cmake", "-B", "made", f"-DCMAKE_PREFIX_PATH={prefix}"], folder, env)
    ran(["cmake", "--build", "made"], folder, env)
    ran([folder / "made/list", "body"], folder, env, LISTED)


def try_cargo(prefix, folder, env):
    name = f"{package.field('name')}-{package.field('version')}"
    crate = prefix / "share/wasm-operators" / name
    (folder / "first/src").mkdir(parents=True)
    (folder / "first/Cargo.toml").write_text(MANIFEST.format(dependency=block_of(prefix, "toml")), encoding="utf-8")
    (folder / "first/src/main.rs").write_text(MAIN, encoding="utf-8")
    ran(["cargo", "build", "--offline", "--quiet"], folder / "first", env)
    ran(["cargo", "run", "--offline", "--quiet"], folder / "first", env, LISTED)
    ran(["tar", "-xzf", crate.with_name(f"{name}.crate")], folder, env)
    ran(["cargo", "test", "--offline", "--quiet"], folder / name, env)


def unpacked(archive, folder, env):
    ran(["tar", "-xf", archive], folder, env)
    return folder / archive.name.removesuffix(".tar.xz")


def run(out, archive=None):
    """Installs `out` and uses its files, or unpacks a release and uses its files."""
    with tempfile.TemporaryDirectory(prefix="dist-try-") as made:
        folder = Path(made)
        env = {name: value for name, value in os.environ.items() if name in ("HOME", "RUSTUP_HOME", "CARGO_HOME", "LANG")}
        env["PATH"] = path_without_rt(folder / "path")
        (folder / "body").write_bytes(BODY)
        if any(shutil.which(name, path=env["PATH"]) for name in ("rt", "rattle")):
            raise Failed("rt is still on the PATH")
        prefix = unpacked(archive, folder, env) if archive else folder / "prefix"
        if not archive:
            installed.install(out, prefix)
        try_tree(prefix, env)
        try_programs(prefix)
        try_examples(prefix, folder, env)
        for command, tries in (("cc", try_c), ("cc", try_callers), ("cc", try_shared), ("cmake", try_cmake), ("cargo", try_cargo)):
            if shutil.which(command, path=env["PATH"]):
                tries(prefix, folder, env)
            else:
                print(f"dist: no {command} here, so what needs it is not tried")
        if not archive:
            try_uninstalling(prefix)
        print("dist: the programs, the C programs and the cargo crate work without the kit")
