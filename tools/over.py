"""Builds over the libraries that the gate left in crates/*/out. `rt run` and `rt lib` don't take these, and prove all of them again.

A tool in a folder beside this file imports it with the folder above its own in `sys.path`.
"""
import hashlib
import os
import pathlib
import subprocess
import sys

TOP = pathlib.Path(__file__).resolve().parent.parent
CRATES = TOP / "crates"
RT = os.environ.get("RT", "rt")


def kit():
    """The kit's folder: that of the page which `rt doc` names."""
    page = subprocess.run([RT, "doc"], capture_output=True, text=True).stdout.strip()
    for folder in [pathlib.Path(os.environ.get("KIT", page)), *pathlib.Path(page).parents]:
        if (folder / "c" / "liblibc_c.a").exists():
            return folder
    sys.exit(f"{pathlib.Path(sys.argv[0]).name}: the kit's c/liblibc_c.a isn't there: say where by KIT=FOLDER")


def read_crates(names):
    """What these crates of crates.txt, and each below them, stand on: those of the kit among them."""
    lines = [line.split(":") for line in (TOP / "crates.txt").read_text().splitlines() if ":" in line and not line.startswith("#")]
    # a static library's line has the kit's libraries that it names beside it
    stands_on = {first.split()[0]: [*below.split()] for first, below in lines}
    found = [name for name in names if name in stands_on]
    for name in found:
        found += [one for one in stands_on[name] if one in stands_on and one not in found]
    return {name: stands_on[name] for name in found}


def sources_of(crate):
    """The files of a crate that its proof reads."""
    return sorted(path for folder in ("src", "specs", "proofs") for path in (CRATES / crate / folder).rglob("*") if path.is_file())


def sum_of_sources(crates, *more):
    """A sum of what is built: the kit, and the files of the crates, and more files."""
    total = hashlib.sha256(subprocess.run([RT, "version"], capture_output=True).stdout)
    for path in [*(path for crate in sorted(crates) for path in sources_of(crate)), *more]:
        total.update(f"{path.relative_to(TOP)} {hashlib.sha256(path.read_bytes()).hexdigest()}\n".encode())
    return total.hexdigest()


def told_of(made, sources):
    return f"{sources} {hashlib.sha256(made.read_bytes()).hexdigest()}\n"


def is_built(made, sources):
    """Whether a file was built from sources of this sum, and is as it was built."""
    kept = made.with_suffix(".sum")
    return made.exists() and kept.exists() and kept.read_text() == told_of(made, sources)


def keep_sum(made, sources):
    """Notes that a file was built from sources of this sum."""
    made.with_suffix(".sum").write_text(told_of(made, sources))


def rlib_of(crate):
    return CRATES / crate / "out" / "rlib" / f"{crate}.rlib"


def made_at(crate):
    """When the library of a crate came into its folder, which is the folder's own time: its files may be links to those of other clones."""
    made = rlib_of(crate)
    return made.stat().st_mtime if (made / "format").exists() else 0


def are_left(crates):
    """Whether the gate left the libraries of these crates: each is younger than its files, and than the libraries that it stands on."""
    return all(made_at(crate) >= max([*(path.stat().st_mtime for path in sources_of(crate)), *(made_at(one) for one in below if one in crates)])
               for crate, below in crates.items())


def build_over(name, home, uses, made, *kind):
    """Proves and builds a crate in a folder over the libraries that it uses, into a file, if all of them are left. It is a program, or
    the words of `kind` say what it is. Takes what `rt ci` passes to prove it. The run that ended, or nothing."""
    below = read_crates(uses)
    if not are_left(below):
        return None
    folder = kit()
    externs = [f"{one}={rlib_of(one) if one in below else f'{folder}/rlibs/{one}.rlib'}" for one in ["std", *uses]]
    words = [*(word for extern in externs for word in ("--extern", extern)), "-L", f"dependency={folder}/rlibs"]
    words += [word for one in below for word in ("-L", f"dependency={rlib_of(one).parent}")]
    words += ["--antt-project", folder / "rattle" / "logic" / "antt-project.json", "--logic-built", folder / "logic_built", "--jobs", "2"]
    words += ["--links", f"{name}=", *kind, "--toolchain", folder / "toolchain", "--backend", "llvm", "-o", made]
    root = "src/lib.rt" if kind else "src/main.rt"
    return subprocess.run([folder / "bin" / "rattle", "build", "--crate-name", name, root, *words], cwd=home, capture_output=True, text=True)
