"""Copies of the repository, in which `rt ci` can be run beside the work."""
import os
import shutil
import subprocess

TOP = os.path.dirname(os.path.dirname(os.path.realpath(__file__)))


def read(path):
    with open(path, encoding="utf-8", errors="replace") as it:
        return it.read()


def copied(to):
    """Copies what git knows of the repository, and what it does not ignore."""
    listed = subprocess.run(["git", "ls-files", "-z", "--cached", "--others", "--exclude-standard"], cwd=TOP, stdout=subprocess.PIPE, check=True).stdout
    for name in filter(None, listed.decode().split("\0")):
        if os.path.isfile(f"{TOP}/{name}"):
            os.makedirs(os.path.dirname(f"{to}/{name}"), exist_ok=True)
            shutil.copy2(f"{TOP}/{name}", f"{to}/{name}")
    # (it is the top of a repository)
    os.mkdir(f"{to}/.git")


def stands_on(top):
    """Returns by each crate's name those of the repository that it names."""
    found = {}
    for line in read(f"{top}/crates.txt").splitlines():
        name, colon, libraries = line.partition("#")[0].partition(":")
        if colon:
            found[name.split()[0]] = libraries.split()
    return {name: [it for it in libraries if it in found] for name, libraries in found.items()}


def below(top, names):
    """Returns the crates with these names and all that they stand on."""
    stands, found = stands_on(top), list(names)
    # (it grows while it is read)
    for name in found:
        found += [it for it in stands[name] if it not in found]
    return set(found)


def cut(top, names):
    """Leaves these crates in a copy, and those that they stand on."""
    kept = below(top, names)
    lines = [it for it in read(f"{top}/crates.txt").splitlines() if it.partition(":")[0].split()[:1] and it.partition(":")[0].split()[0] in kept]
    with open(f"{top}/crates.txt", "w", encoding="utf-8") as it:
        it.write("".join(f"{line}\n" for line in lines))
    for name in os.listdir(f"{top}/crates"):
        if name not in kept:
            shutil.rmtree(f"{top}/crates/{name}")
