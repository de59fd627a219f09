"""Makes the cargo package: the crate of rust with the libraries that it links."""

import gzip
import io
import re
import shutil
import subprocess
import tarfile
import tempfile
from pathlib import Path

from packing import texts
from packing.builds import TOP, Failed

FOLDER = "rust"
CRATE = TOP / FOLDER
KEPT = ["Cargo.toml", "Cargo.lock", "build.rs", "README.md", "API.md", "src", "examples", "tests"]
OUTSIDE = re.compile(r'(include_(?:str|bytes)!\(\s*")(?:\.\./){2,}([^"]+)"')


def field(name):
    return re.search(rf'^{name} = "(.*)"$', (CRATE / "Cargo.toml").read_text(encoding="utf-8"), re.M)[1]


def brought_in(text):
    """Returns a test that reads its files from the package, and these files: here and in `tests`."""
    files = {path: f"data/{path.replace('/', '-')}" for _, path in OUTSIDE.findall(text)}
    return OUTSIDE.sub(lambda found: f'{found[1]}{files[found[2]]}"', text), files


def bring_in(folder):
    for test in sorted((folder / "tests").glob("*.rs")):
        text, files = brought_in(test.read_text(encoding="utf-8"))
        test.write_text(text, encoding="utf-8")
        for path, inside in files.items():
            (folder / "tests" / inside).parent.mkdir(exist_ok=True)
            shutil.copyfile(TOP / path, folder / "tests" / inside)


def place_of(path):
    """Returns the path in the package of a file of the repository, or None."""
    inside = path.removeprefix(f"{FOLDER}/")
    return inside if inside != path and inside.split("/")[0] in KEPT else None


def make(folder, libraries, notices):
    package = folder / f"{field('name')}-{field('version')}"
    for name in KEPT:
        copy = shutil.copytree if (CRATE / name).is_dir() else shutil.copyfile
        package.mkdir(parents=True, exist_ok=True)
        copy(CRATE / name, package / name)
    bring_in(package)
    for page in package.glob("*.md"):
        text = page.read_text(encoding="utf-8")
        page.write_text(texts.relinked(f"{FOLDER}/{page.name}", text, place_of), encoding="utf-8")
    shutil.copyfile(TOP / "LICENSE", package / "LICENSE")
    (package / "native").mkdir()
    for name, path in {**{path.name: path for path in libraries}, **notices}.items():
        shutil.copyfile(path, package / "native" / name)
    return package


def pack(package, archive):
    """Packs the crate by cargo, or, if that is missing, in the same form. The same files give the same bytes."""
    if shutil.which("cargo"):
        with tempfile.TemporaryDirectory(prefix="package-") as folder:
            words = ["cargo", "package", "--offline", "--no-verify", "--allow-dirty", "--target-dir", folder]
            ran = subprocess.run(words, cwd=package, capture_output=True, text=True)
            if ran.returncode:
                raise Failed(f"cargo package failed:\n{ran.stderr}")
            shutil.copyfile(Path(folder) / "package" / f"{package.name}.crate", archive)
        return
    packed = io.BytesIO()
    with tarfile.open(fileobj=packed, mode="w", format=tarfile.GNU_FORMAT) as out:
        for path in sorted(it for it in package.rglob("*") if it.is_file()):
            info = tarfile.TarInfo(str(path.relative_to(package.parent)))
            info.size, info.mode = path.stat().st_size, 0o644
            with open(path, "rb") as it:
                out.addfile(info, it)
    archive.write_bytes(gzip.compress(packed.getvalue(), mtime=0))
