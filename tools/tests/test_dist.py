import io
import os
import re
import shutil
import subprocess
import tarfile
import unittest
from contextlib import redirect_stdout
from pathlib import Path
from unittest import mock

import trust
from packing import builds, installed, manual, package, rattle, release, shared_library, texts, trial
from shared.crates import TOP
from testing.crates import Crates
from testing.over_libraries import loaded
from tests import InFolder, data

dist = loaded(TOP / "tools/dist")


class Pages(unittest.TestCase):
    def test_what_libraries_get_exists(self):
        self.assertTrue((TOP / "crates/wasm_operators/CALLING.md").is_file())
        for name, parts in rattle.MORE.items():
            for path in parts.values():
                self.assertTrue((TOP / path).exists(), f"{name}: {path}")


class Builds(unittest.TestCase):
    def test_programs_and_what_they_need(self):
        crates = Crates(TOP)
        programs, libraries = builds.programs_of(crates), builds.libraries_of(crates)
        self.assertIn("wasm_objdump", programs)
        self.assertFalse([name for name in programs if name.startswith("wasm_tests_")])
        self.assertLess({"wasm_operators", "wasm_listing", "wasm_text", "wasm_module", "wasm_c"}, set(libraries))
        for at, name in enumerate(libraries):
            self.assertLessEqual(set(crates.below(name)), set(libraries[:at]), name)


class Proved(InFolder):
    def setUp(self):
        super().setUp()
        self.repo, self.kit = self.folder / "repo", self.folder / "kit"
        self.file("repo/crates.txt", "low:\nwasm_c_exports staticlib: low\nprog: low\nwasm_tests_low: low\n")
        for path in ("low/src/lib.rt", "low/must-fail/a.edit", "wasm_c_exports/src/lib.rt", "prog/src/main.rt", "wasm_tests_low/src/main.rt"):
            self.file(f"repo/crates/{path}", path)
        self.file("repo/HANDLES", "Handles allowed: none.\n")
        git = lambda *words: subprocess.run(["git", "-C", self.repo, "-c", "user.name=n", "-c", "user.email=e", *words], check=True)
        git("init", "-q")
        git("add", ".")
        git("commit", "-qm", "all")
        # (commands in place of the kit's)
        self.program(data("rattle.sh"), "kit/bin/rattle")
        self.program(data("rt.sh"), "path/rt")

    def build(self, result="4 passed, 0 failed", verdict="logic=proved functions=1"):
        env = {"PATH": f"{self.folder}/path:{os.environ['PATH']}", "RESULT": result, "VERDICT": verdict}
        with mock.patch.object(builds, "TOP", self.repo), mock.patch.dict(os.environ, env), redirect_stdout(io.StringIO()):
            commit, changed = builds.commit_of(self.repo)
            self.assertEqual(changed, [])
            return builds.proved(self.kit, commit, self.folder / "made", self.folder / "log")

    def test_what_is_built(self):
        built = self.build()
        self.assertEqual((self.folder / "seen").read_text().split(), ["low", "prog", "wasm_c_exports"])
        self.assertFalse((self.folder / "made/crates/low/must-fail").exists())
        self.assertEqual(built.programs["prog"].read_text(), "program\n")
        self.assertEqual(list(built.libraries), ["low"])
        self.assertEqual(built.archive.read_text(), "compiled\n")
        self.assertEqual(built.said, ["rt: ok; handles allowed: none", "4 passed, 0 failed"])
        self.assertEqual(built.verdict, ["assumed: libc::write", "logic=proved functions=1"])

    def test_failures(self):
        with self.assertRaisesRegex(builds.Failed, "rt ci failed"):
            self.build(result="3 passed, 1 failed")
        self.assertIn("3 passed, 1 failed", (self.folder / "log").read_text())
        with self.assertRaisesRegex(builds.Failed, "wasm_c_exports is not proved"):
            self.build(verdict="logic=not-proved")


class Package(InFolder):
    def test_package(self):
        library = self.file("libwasm_c.a", "archive")
        made = package.make(self.folder / "made", [library], {"low-LICENSE": self.file("LICENSE", "free")})
        self.assertEqual(made.name, f"wasm-operators-{package.field('version')}")
        self.assertEqual((made / "native/libwasm_c.a").read_text(), "archive")
        self.assertEqual((made / "native/low-LICENSE").read_text(), "free")
        self.assertEqual((made / "LICENSE").read_text(), (TOP / "LICENSE").read_text())
        self.assertEqual(list(trial.dead_links(made)), [])
        outside = [path for path in made.rglob("*.rs") if package.OUTSIDE.search(path.read_text(encoding="utf-8"))]
        self.assertEqual(outside, [])
        packed = [self.folder / name for name in ("one.crate", "two.crate")]
        for path in packed:
            package.pack(made, path)
        self.assertEqual(packed[0].read_bytes(), packed[1].read_bytes())
        with tarfile.open(packed[0]) as it:
            self.assertIn(f"{made.name}/Cargo.toml", it.getnames())

    def test_the_build_script_names_the_command(self):
        script = (TOP / "rust/build.rs").read_text(encoding="utf-8")
        self.assertIn('"    tools/dist",', script)
        self.assertIn("WASM_OPERATORS_LIBRARIES=$PWD/dist/lib", script)


HELP = data("help.txt")


class Manual(InFolder):
    def test_man_page(self):
        page = manual.man_page("wasm_objdump", HELP, "abc", ["wasm_objdump", "wasm_dump"])
        self.assertTrue(page.startswith(f'.TH WASM_OBJDUMP 1 "" "{texts.release()} (abc)"\n.SH NAME\nwasm_objdump \\- lists the sections '))
        self.assertIn(".SH SYNOPSIS\nwasm_objdump [OPTION].. [FILE]..\n.SH DESCRIPTION\nLists modules. Reads\n\\&.dot\n", page)
        self.assertIn(".TP\n\\fB\\-h, \\-\\-headers\\fR\nlist the sections\n.TP\n", page)
        self.assertIn("names: multi_memory, memory64\n.SH EXIT STATUS\nThe exit status is 0.\n.SH EXAMPLES\n", page)
        self.assertTrue(page.endswith(".SH SEE ALSO\n\\fBwasm_dump\\fR(1)\n"))

    def test_completion(self):
        path = self.file("completion", manual.completion("wasm_objdump", HELP))
        for words, found in (("--features m", "multi_memory memory64"), ("--f", "--features"), ("file", "")):
            given = f"COMP_WORDS=(wasm_objdump {words}); COMP_CWORD=$((${{#COMP_WORDS[@]}} - 1)); _wasm_objdump"
            ran = subprocess.run(["bash", "-c", f'. {path}; {given}; echo "${{COMPREPLY[@]}}"'], capture_output=True, text=True)
            self.assertEqual(ran.stdout, f"{found}\n")

    def test_page_of_the_header(self):
        header = (TOP / "c/include/wasm_operators.h").read_text(encoding="utf-8")
        page = manual.header_page(header, "abc", ["low"])
        names = set(re.findall(r"^[\w ]*?\*?(wasm_\w+)\(", header, re.M)) | set(re.findall(r"^typedef struct (\w+)", header, re.M))
        self.assertEqual(set(re.findall(r"^\.SS (\w+)$", page, re.M)), names)
        self.assertIn(".SS wasm_frames_needed\n.nf\nsize_t wasm_frames_needed(size_t bytes_length);\n.fi\n.PP\nReturns the number", page)
        self.assertNotIn("*/", page.split(".SH TYPES")[0])

    def test_examples_name_programs(self):
        for line in manual.EXAMPLES.read_text(encoding="utf-8").splitlines()[1:]:
            program, command, what = line.split("\t")
            self.assertTrue((TOP / "crates" / program / "src/main.rt").exists() and program in command and what.endswith("."), line)


@unittest.skipUnless(shutil.which("cc"), "there is no cc")
class Shared(InFolder):
    def archive(self, name, text):
        source = self.file(f"{name}.c", text)
        subprocess.run(["cc", "-fPIC", "-c", "-o", source.with_suffix(".o"), source], check=True)
        subprocess.run(["ar", "rcs", self.folder / f"lib{name}.a", source.with_suffix(".o")], check=True)
        return self.folder / f"lib{name}.a"

    def test_symbols(self):
        one = self.archive("one", "int inner(void); int other(void) { return 1; } int wasm_one(void) { return inner() + other(); }\n")
        two = self.archive("two", "int inner(void) { return 1; }\n")
        self.assertIsNone(shared_library.make([one, two], self.folder, "7"))
        made = self.folder / "libwasm_operators.so.7"
        dynamic = subprocess.run(["nm", "-D", "--defined-only", made], capture_output=True, text=True, check=True).stdout
        self.assertEqual([line.split()[-1] for line in dynamic.splitlines()], ["wasm_one"])
        self.assertIn(b"libwasm_operators.so.7\0", made.read_bytes())
        self.assertIn("INPUT ( libwasm_operators.so.7 )", (self.folder / shared_library.NAME).read_text())

    def test_what_cannot_be_linked(self):
        one = self.archive("one", "int missing(void); int wasm_one(void) { return missing(); }\n")
        self.assertIn("missing", shared_library.make([one], self.folder, "7"))
        self.assertFalse((self.folder / shared_library.NAME).exists())


class Release(InFolder):
    def test_release(self):
        self.program("program", "dist/bin/low")
        with self.assertRaises(builds.Failed):
            release.make(self.folder / "dist")
        self.file("dist/PROVED", "proved")
        made = []
        for _ in range(2):
            with redirect_stdout(io.StringIO()):
                release.make(self.folder / "dist")
            (archive,) = self.folder.glob("*.tar.xz")
            made.append(archive.read_bytes())
        self.assertEqual(made[0], made[1])
        checked = subprocess.run(["sha256sum", "--check", "--quiet", f"{archive.name}.sha256"], cwd=self.folder)
        self.assertEqual(checked.returncode, 0)
        name = archive.name.removesuffix(".tar.xz")
        with tarfile.open(archive) as it:
            self.assertEqual({one.name: one.mode for one in it}, {f"{name}/PROVED": 0o644, f"{name}/bin/low": 0o755})
        self.assertTrue((self.folder / f"{name}.md").read_text(encoding="utf-8").startswith("## "))


class Texts(InFolder):
    def test_links_of_installed_pages(self):
        text = "[a](b.md#c) [d](../x/y.rt) [e](https://e.example/f) [g](#h) [i](../x/z.c)"
        names = {"docs/b.md": "b.md", "x/z.c": "z.c"}
        changed = texts.relinked("docs/a.md", text, names.get)
        self.assertEqual(changed, "[a](b.md#c) d [e](https://e.example/f) [g](#h) [i](z.c)")

    def test_installed_pages(self):
        pages = [*dist.PAGES, *dist.EXAMPLES]
        for path in pages:
            self.file(Path(path).name, texts.installed_page(path, pages) if path.endswith(".md") else "")
        self.assertEqual(list(trial.dead_links(self.folder)), [])
        self.file("CALLERS.md", "[x](lost.md)")
        self.assertEqual(list(trial.dead_links(self.folder)), ["CALLERS.md: [x](lost.md)"])

    def test_one_release(self):
        text = lambda path: (TOP / path).read_text(encoding="utf-8")
        version = texts.release()
        self.assertEqual(package.field("version"), version)
        self.assertIn(f'name = "wasm-operators"\nversion = "{version}"\n', text("rust/Cargo.lock"))
        self.assertIn(f"/wasm-operators-{version}`", text("docs/CALLERS.md"))
        self.assertRegex(text("CHANGELOG.md"), rf"\A# Changelog\n[^#]*\n## {version}, ")
        self.assertIn("follows wasmparser 0.263.0", release.notes().split("\n")[0])
        for path in TOP.glob("crates/*/src/main.rt"):
            for found in re.findall(r'^const VERSION: &str = "(.*)";$', path.read_text(encoding="utf-8"), re.M):
                self.assertEqual(found, f"{path.parts[-3]} {version}, follows wasmparser 0.263.0\\n")


class Install(InFolder):
    DIST = ("bin/low", "lib/pkgconfig/a.pc", "include/a.h", "share/man/man1/low.1", "rattle/KIT", "PROVED", "README.md", "SHA256SUMS")
    PLACES = {
        "bin/low", "lib/pkgconfig/a.pc", "include/a.h", "share/man/man1/low.1", "share/wasm-operators/rattle/KIT",
        "share/doc/wasm-operators/PROVED", "share/doc/wasm-operators/README.md", "share/doc/wasm-operators/SHA256SUMS",
    }

    def setUp(self):
        super().setUp()
        self.prefix = self.folder / "prefix"
        for path in self.DIST:
            self.file(f"dist/{path}", path)
        (self.folder / "dist/bin/low").chmod(0o755)
        with redirect_stdout(io.StringIO()):
            installed.install(self.folder / "dist", self.prefix)

    def found(self):
        return {str(it.relative_to(self.prefix)) for it in self.prefix.rglob("*") if it.is_file()}

    def test_prefix(self):
        self.assertEqual(self.found(), self.PLACES)
        self.assertTrue(os.access(self.prefix / "bin/low", os.X_OK))

    def test_checksums(self):
        check = lambda: subprocess.run(["sha256sum", "--check", "--quiet", installed.SUMS], cwd=self.prefix, capture_output=True)
        self.assertEqual(check().returncode, 0)
        lines = (self.prefix / installed.SUMS).read_text().splitlines()
        self.assertEqual(len(lines), len(self.PLACES) - 1)
        (self.prefix / "bin/low").write_text("other")
        self.assertNotEqual(check().returncode, 0)

    def test_uninstalling(self):
        (self.prefix / "share/doc/other").write_text("kept")
        with redirect_stdout(io.StringIO()):
            installed.uninstall(self.prefix)
        self.assertEqual(self.found(), {"share/doc/other"})
        self.assertEqual({it.name for it in self.prefix.iterdir()}, {"share"})
        with self.assertRaisesRegex(installed.NotInstalled, "nothing is installed there"):
            installed.uninstall(self.prefix)

    def test_destdir(self):
        for staged, wanted in {"/staged": "/staged/usr", "": "/usr"}.items():
            with mock.patch.dict(os.environ, {"DESTDIR": staged}):
                self.assertEqual(dist.prefix_of(Path("/usr")), Path(wanted))


class RattleLibraries(InFolder):
    def kit(self):
        for path in ("bin/rattle", "bin/rtlib.py", "c/libos_c.a", "rlibs/std.rlib/format", "rattle/std/src/lib.rt", "WHAT"):
            self.file(f"kit/{path}", path)
        self.file("kit/KIT-ID", "kit-1\n")
        self.file("kit/bin/rt", "#!/bin/sh\ncat \"$(dirname \"$(dirname \"$(realpath \"$0\")\")\")/KIT-ID\"\n").chmod(0o755)
        return self.folder / "kit"

    def packed(self, kit):
        self.file("repo/crates.txt", "low:\n")
        self.file("repo/crates/low/src/lib.rt", "fn low() {}\n")
        self.file("rlib/format", "crate low\n")
        out = self.folder / "rattle"
        with mock.patch.object(rattle, "TOP", self.folder / "repo"):
            rattle.make(kit, Crates(self.folder / "repo"), {"low": self.folder / "rlib"}, self.folder / "scratch", out)
        return out

    def add(self, out, kit):
        return subprocess.run([out / "add-to-kit", kit, self.folder / "new"], capture_output=True, text=True)

    @unittest.skipUnless(shutil.which("xz"), "needs xz")
    def test_kit_of_links(self):
        kit = self.kit()
        out = self.packed(kit)
        added = self.add(out, kit)
        self.assertEqual(added.returncode, 0, added.stderr)
        new = self.folder / "new"
        self.assertEqual((new / "rlibs/low.rlib/format").read_text(), "crate low\n")
        self.assertEqual((new / "rattle/low/src/lib.rt").read_text(), "fn low() {}\n")
        self.assertEqual((new / "rlibs/std.rlib/format").read_text(), "rlibs/std.rlib/format")
        self.assertTrue((new / "bin/rattle").is_symlink())
        self.assertFalse((new / "bin/rt").is_symlink())
        self.assertIn("exists", self.add(out, kit).stderr)
        self.assertIn("`low`", (out / "README.md").read_text())
        self.assertIn("must print `kit-1`", (out / "README.md").read_text())

    @unittest.skipUnless(shutil.which("xz"), "needs xz")
    def test_another_kit(self):
        kit = self.kit()
        out = self.packed(kit)
        self.file("kit/WHAT", "another archive")
        added = self.add(out, kit)
        self.assertEqual(added.returncode, 1)
        self.assertIn("these libraries are for another kit", added.stderr)
        self.assertIn("    another archive", added.stderr)
        self.assertFalse((self.folder / "new").exists())
        self.assertIn("is no Rattle kit", self.add(out, self.folder).stderr)


class Trust(InFolder):
    def test_search(self):
        self.file("crates.txt", "low:\n")
        self.file("crates/low/src/lib.rt", 'extern "C" {\n    fn f();\n}\n// unsafe { }\nfn g() { unsafe { f() } }\n')
        self.file("crates/low/proofs/Bad.antt", "-- axiom in a comment\naxiom bad : Type\nworse : Type\nworse = ?\nworst = f ?here x\n")
        self.file("crates/low/out/lib.rt", 'extern "C" {}\n')
        found = {what: places for what, _, _, places in trust.found_in(Crates(self.folder), ["low"])}
        self.assertEqual(found["functions that C code defines"], ["crates/low/src/lib.rt:1"])
        self.assertEqual(found["unsafe blocks and functions"], ["crates/low/src/lib.rt:5"])
        self.assertEqual(found["axioms"], ["crates/low/proofs/Bad.antt:2"])
        self.assertEqual(len(found["holes"]), 2)
        self.assertEqual(found["the handles Abort, Wait, Threads, Net, Processes"], [])
