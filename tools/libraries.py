"""The libraries of this repository as `rt ci` has built them, in crates/NAME/out/rlib, for tools that run the kit's compiler over
them in place of proving them anew. That is for whoever has just seen them proved, as .ci/run has: it sets LIBRARIES=proved."""
import os, shutil
from pathlib import Path

ROOT = Path(__file__).resolve().parent.parent
ARE_PROVED = os.environ.get("LIBRARIES") == "proved"


def kit():
    """The folder of the kit whose `rt` is on the path."""
    return Path(shutil.which("rt") or "rt").resolve().parent.parent


def uses():
    """What each crate of the repository uses, by crates.txt."""
    lines = [it.partition("#")[0].partition(":") for it in (ROOT / "crates.txt").read_text(encoding="utf-8").split("\n")]
    return {name.split()[0]: below.split() for name, found, below in lines if found}


def below(name, used):
    """The crates of the repository below this one, lowest first."""
    found = {}
    for it in used[name]:
        if it in used:
            found.update(dict.fromkeys([*below(it, used), it]))
    return list(found)


def words_over(name):
    """The words with which the kit's compiler takes a crate, in its folder, over the libraries below it."""
    used, its = uses(), kit()
    built = {it: ROOT / "crates" / it / "out" / "rlib" / f"{it}.rlib" for it in below(name, used)}
    root = "src/main.rt" if (ROOT / "crates" / name / "src" / "main.rt").is_file() else "src/lib.rt"
    words = ["--crate-name", name, root]
    words += [f"--extern={it}={built.get(it, its / 'rlibs' / f'{it}.rlib')}" for it in ["std", *used[name]]]
    words += [f"-Ldependency={it}" for it in [its / "rlibs", *(it.parent for it in built.values())]]
    words += ["--antt-project", its / "rattle" / "logic" / "antt-project.json", "--logic-built", its / "logic_built"]
    return [*words, "--links", f"{name}="]
