"""Crates in the order in which rt proves them, and an archive over the libraries that rt ci has proved just now.

rt ci leaves the libraries in crates/NAME/out/rlib. rt lib does not take these: it would prove each of
them once more. So the toolchain's compiler is called here as rt calls it. It proves the crate of the
archive, and builds nothing that is not proved.
"""

import os


def read_crate_list(path):
    """For each crate of crates.txt the words after its colon: what it depends on, of the repository and of the toolchain."""
    with open(path, encoding="utf-8") as file:
        lines = [line.partition("#")[0].partition(":") for line in file]
    # A name may have words after it, as `capi staticlib`.
    return {name.split()[0]: words.split() for name, colon, words in lines if colon}


def all_below(name, crates):
    """The crates of the repository that a crate needs, each after those that it needs, which is the order of rt."""
    found = {}

    def visit(needed):
        for other in needed:
            if other in crates and other not in found:
                visit(crates[other])
                found[other] = None

    visit(crates.get(name, []))
    return list(found)


def library_of(folder, name):
    return os.path.join(folder, name, "out", "rlib", f"{name}.rlib")


def is_made_since(path, moment):
    """Whether a file or folder was made at this time or later, in seconds since 1970."""
    try:
        return os.stat(path).st_mtime >= moment
    except FileNotFoundError:
        return False


def are_made_since(moment, name, crates, folder):
    """Whether all libraries below a crate were made since a time, so that none is left from an earlier rt ci or rt check."""
    return all(is_made_since(library_of(folder, other), moment) for other in all_below(name, crates))


def words_to_build(rt, name, crates, folder, archive):
    """The command that proves a crate and builds its archive, in the crate's folder."""
    kit = os.path.dirname(os.path.dirname(os.path.realpath(rt)))
    words = [os.path.join(kit, "bin", "rattle"), "build", "--crate-name", name, "src/lib.rt", "--crate-type", "staticlib"]
    of_kit = ["std", *(other for other in crates[name] if other not in crates)]
    for other in of_kit:
        words += ["--extern", f"{other}={kit}/rlibs/{other}.rlib"]
    words += ["-L", f"dependency={kit}/rlibs"]
    for other in crates[name]:
        if other in crates:
            words += ["--extern", f"{other}={library_of(folder, other)}"]
    for other in all_below(name, crates):
        words += ["-L", f"dependency={os.path.dirname(library_of(folder, other))}"]
    words += ["--antt-project", f"{kit}/rattle/logic/antt-project.json", "--logic-built", f"{kit}/logic_built", "--jobs", "2"]
    return [*words, "--toolchain", f"{kit}/toolchain", "--backend", "llvm", "-o", archive]
