"""Builds the static library ifs_ffi over the libraries that `make run` proved. tools/library and tools/page use it."""
import os
import subprocess
import sys
import tempfile
from pathlib import Path

from proving import KIT, crates_of, words_of

TOP = Path(__file__).resolve().parent.parent
NAME = "ifs_ffi"
# the LLVM module of the library
MODULE = TOP / "out" / "library" / "module.bc"
CLANG = KIT / "toolchain" / "bin" / "clang"
KEEPING = """#!/bin/sh
for word; do
	case $word in *.bc) cp "$word" "{module}" ;; esac
done
exec "{clang}" "$@"
"""


def words():
    """What rattle is told of the crate and the libraries below it. RLIBS names a folder that has them all."""
    used = crates_of(TOP / "crates.txt")

    def folder(library):
        if library not in used:
            return KIT / "rlibs"
        return Path(os.environ.get("RLIBS") or TOP / "crates" / library / "out" / "rlib").resolve()

    for library in used[NAME]:
        if not (folder(library) / f"{library}.rlib").is_dir():
            sys.exit(f"no {folder(library) / library}.rlib: make run builds it")
    return [*words_of(NAME, "src/lib.rt", used, folder), "--crate-type", "staticlib"]


def keeping_toolchain(room):
    """A folder like that of the toolchain, whose clang copies the LLVM module that it is handed to MODULE."""
    toolchain = room / "toolchain"
    for path in (KIT / "toolchain").glob("*/*"):
        link = toolchain / path.relative_to(KIT / "toolchain")
        link.parent.mkdir(parents=True, exist_ok=True)
        if path != CLANG:
            link.symlink_to(path)
    clang = toolchain / "bin" / "clang"
    clang.write_text(KEEPING.format(module=MODULE, clang=CLANG))
    clang.chmod(0o755)
    return toolchain


def build(archive):
    """Proves the crate, and writes its archive and MODULE. What was proved before is kept."""
    folder = TOP / "crates" / NAME
    (folder / "out").mkdir(exist_ok=True)
    MODULE.parent.mkdir(parents=True, exist_ok=True)
    MODULE.unlink(missing_ok=True)
    kept = ["--incremental", str(folder / "out" / "library"), "--jobs", "1"]
    with tempfile.TemporaryDirectory(prefix="ifsvm-library-") as room:
        built = ["--toolchain", str(keeping_toolchain(Path(room))), "-o", str(archive)]
        command = [str(KIT / "bin" / "rattle"), "build", *words(), *kept, *built]
        ran = subprocess.run(command, cwd=folder, stdout=subprocess.PIPE, stderr=subprocess.STDOUT, text=True, errors="replace")
    if ran.returncode:
        sys.exit(ran.stdout + f"the library {NAME} was not built")
    print(ran.stdout.splitlines()[-1])


def run(*command, **how):
    """Runs a command, and ends if it fails."""
    ran = subprocess.run([str(word) for word in command], **how)
    if ran.returncode:
        sys.exit(f"{' '.join(map(str, command))}: status {ran.returncode}")
    return ran
