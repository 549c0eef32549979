"""What the scripts share that call the prover by themselves: the crates of the tree, and the words by which `rattle` is told on what a crate
rests."""
import pathlib
import re
import subprocess

ROOT = pathlib.Path(__file__).resolve().parent.parent
KIT = pathlib.Path(subprocess.run(["rt", "doc"], stdout=subprocess.PIPE, encoding="utf-8", check=True).stdout.strip()).parent
LISTED = {name: uses.split() for name, uses in re.findall(r"^(\w+)(?: staticlib)?:([^#\n]*)", (ROOT / "crates.txt").read_text(encoding="utf-8"), re.M)}
# for each crate all those that it rests on, one through another, from the ground up
BELOW = {}
for crate in LISTED:
    found = []
    for name in LISTED[crate]:
        found += [one for one in [*BELOW.get(name, []), name] if one in LISTED and one not in found]
    BELOW[crate] = found


def library(crate):
    return ROOT / "crates" / crate / "out" / "rlib" / f"{crate}.rlib"


def is_left(crate):
    """Whether the library stands as `rt ci` left it, and no file of the crate has changed since. Beside one that another command built there
    is a stamp."""
    rlib = library(crate)
    if not (rlib / "format").is_file() or (rlib.parent / "stamp").exists():
        return False
    files = [path for part in ("src", "specs", "proofs") for path in (ROOT / "crates" / crate / part).rglob("*")]
    return all(path.stat().st_mtime <= rlib.stat().st_mtime for path in files)


def are_there(crates):
    """Whether the libraries of some crates, from the ground up, are there: as `rt ci` left them, or else as `rt lib` makes them of what checks
    have kept."""
    return all(map(is_left, crates)) or all(
        subprocess.run(["rt", "lib"], cwd=ROOT / "crates" / crate, stdout=subprocess.DEVNULL).returncode == 0 for crate in crates)


def words(crate, root, uses, below):
    """The words that name a crate, its root file and what it rests on: the crates that it uses, and all those below it."""
    said = ["--crate-name", crate, root, "--extern", f"std={KIT}/rlibs/std.rlib", "-L", f"dependency={KIT}/rlibs"]
    of_kit = sorted({name for one in below for name in LISTED[one] if name not in LISTED})
    for name in of_kit:
        said += ["--extern", f"{name}={KIT}/rlibs/{name}.rlib"]
    for name in uses:
        said += ["--extern", f"{name}={library(name)}"]
    for name in below:
        said += ["-L", f"dependency={library(name).parent}"]
    return [*said, "--antt-project", f"{KIT}/rattle/logic/antt-project.json", "--logic-built", f"{KIT}/logic_built"]


def run(verb, said):
    """What `rattle` ends with, and what it says."""
    ran = subprocess.run(["rattle", verb, *said], stdout=subprocess.PIPE, stderr=subprocess.STDOUT, stdin=subprocess.DEVNULL,
                         encoding="utf-8", errors="replace")
    return ran.returncode, ran.stdout
