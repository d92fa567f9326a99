"""The crates of crates.txt: which stand on which, and what the toolchain is told of one. It is no tool, but what tools share."""
import functools
import graphlib
import os
import shutil

TOP = os.path.dirname(os.path.dirname(os.path.realpath(__file__)))


@functools.cache
def listed():
    """What each crate of crates.txt stands on, the kit's libraries, too."""
    with open(f"{TOP}/crates.txt", encoding="utf-8") as file:
        lines = [line.partition("#")[0].partition(":") for line in file]
    return {name.strip(): uses.split() for name, colon, uses in lines if colon}


@functools.cache
def own(name):
    """The crates of this repository that one names."""
    return [it for it in listed()[name] if it in listed()]


@functools.cache
def below(name):
    """The crates that one stands on, and those that these stand on, lowest first."""
    found, left = set(), [*own(name)]
    while left:
        it = left.pop()
        if it not in found:
            found.add(it)
            left += own(it)
    return [*graphlib.TopologicalSorter({it: own(it) for it in found}).static_order()]


def kit():
    """The folder of the toolchain, or None where its command is not on the PATH."""
    rt = shutil.which("rt")
    return rt and os.path.dirname(os.path.dirname(os.path.realpath(rt)))


def words(name, at):
    """The words that rt gives `rattle check` and `rattle build` for a crate whose files are at a place, over the libraries as they are built in this tree."""
    place = lambda it: f"{TOP}/crates/{it}/out/rlib" if it in listed() else f"{kit()}/rlibs"
    root = next(it for it in ("main.rt", "lib.rt") if os.path.exists(f"{TOP}/crates/{name}/src/{it}"))
    given = ["--crate-name", name, f"{at}src/{root}", "-L", f"dependency={kit()}/rlibs"]
    for it in ["std", *listed()[name]]:
        given += ["--extern", f"{it}={place(it)}/{it}.rlib"]
    for it in below(name):
        given += ["-L", f"dependency={place(it)}"]
    return [*given, "--antt-project", f"{kit()}/rattle/logic/antt-project.json", "--logic-built", f"{kit()}/logic_built"]
