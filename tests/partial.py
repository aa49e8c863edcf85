"""A copy of the repository as far as some crates reach, with what is proved of them, for a crate of a test's own."""
import os
import shutil

ROOT = os.path.dirname(os.path.dirname(os.path.abspath(__file__)))


def listed():
    """Each crate's direct dependencies, as crates.txt has them."""
    with open(os.path.join(ROOT, "crates.txt"), encoding="utf-8") as lines:
        pairs = [x.split("#")[0].strip().split(":") for x in lines]
    return {pair[0].split()[0]: pair[1].split() for pair in pairs if len(pair) == 2}


def reached(names):
    """The crates of the repository that these need, themselves included."""
    depends, found, todo = listed(), [], list(names)
    while todo:
        name = todo.pop()
        if name in depends and name not in found:
            found.append(name)
            todo += depends[name]
    return {name: depends[name] for name in found}


def crates(to, names, more=()):
    """Copies the crates that `names` reach into the folder `to`, and lists them and `more`, each of these with what it needs."""
    found = reached(names)
    for name in found:
        # (what its checks kept is large, and the library that they built is enough)
        shutil.copytree(os.path.join(ROOT, "crates", name), os.path.join(to, "crates", name), ignore=shutil.ignore_patterns("incremental"))
    with open(os.path.join(to, "crates.txt"), "w", encoding="utf-8") as lines:
        for name, depends in [*found.items(), *more]:
            lines.write(f"{name}:{''.join(' ' + x for x in depends)}\n")


def copy(to, names, own, needs):
    """The same with a crate `own` of a test's, which needs `needs`; its folder for sources."""
    crates(to, names, [(own, needs)])
    sources = os.path.join(to, "crates", own, "src")
    os.makedirs(sources)
    return sources
