"""What tools/archive and tools/edits know of the kit: the crates of crates.txt, and rattle's words for one, over the libraries below it as they are built."""
import functools
import pathlib
import subprocess


def listed(root):
    """The crates of crates.txt, each with the libraries that it uses, and those of them that are static libraries."""
    rows = [line.split("#")[0] for line in (root / "crates.txt").read_text().splitlines()]
    heads = [(head.split(), uses.split()) for head, _, uses in (row.partition(":") for row in rows) if head.strip()]
    return {head[0]: uses for head, uses in heads}, {head[0] for head, _ in heads if "staticlib" in head}


def below(name, uses):
    """The repository's libraries below a crate."""
    found = [it for it in uses[name] if it in uses]
    for it in found:
        found += [dep for dep in uses[it] if dep in uses and dep not in found]
    return found


def library(root, name):
    """Where rt writes the library of a crate."""
    return root / "crates" / name / "out" / "rlib" / f"{name}.rlib"


def left_by_ci(root, name):
    """Whether the library of a crate is one that `rt ci` made of the text that is there now. A library of any other command has a stamp beside it."""
    made = library(root, name)
    if not (made / "format").is_file() or (made.parent / "stamp").exists():
        return False
    moment = made.stat().st_mtime
    read = [root / "crates.txt"] + [it for part in ("src", "specs", "proofs") for it in (root / "crates" / name / part).rglob("*")]
    return all(it.stat().st_mtime <= moment for it in read)


@functools.lru_cache
def kit():
    """The kit's folder."""
    return pathlib.Path(subprocess.run(["rt", "doc"], capture_output=True, text=True, check=True).stdout.strip()).parent


def rattle(root, verb, name, *flags):
    """What rattle is called with, in the crate's folder: as rt calls it."""
    uses, static = listed(root)
    top = "src/main.rt" if (root / "crates" / name / "src" / "main.rt").is_file() else "src/lib.rt"
    words = [kit() / "bin" / "rattle", verb, "--crate-name", name, top, "-L", f"dependency={kit()}/rlibs"]
    for it in ["std", *uses[name]]:
        words += ["--extern", f"{it}={library(root, it) if it in uses else kit() / 'rlibs' / f'{it}.rlib'}"]
    for it in below(name, uses):
        words += ["-L", f"dependency={library(root, it).parent}"]
    words += ["--antt-project", kit() / "rattle/logic/antt-project.json", "--logic-built", kit() / "logic_built", "--links", f"{name}="]
    return [str(it) for it in [*words, *["--crate-type", "staticlib"] * (name in static), *flags]]
