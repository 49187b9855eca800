"""The definitions that a contract reaches: those whose names stand in its clauses, those that these name, and so on.

It goes by names, through the imports of each file: a bound name that is also the name of a definition of the file counts as that, so the list may have
a few too many.
"""
import itertools
import os
import re

from copies import TOP, read, stands_on

NAME = re.compile(r"[A-Za-z_][\w'-]*")
USE = re.compile(r"^(?:ghost )?(?:pub )?use (Rattle[\w.]*)(?:\.\{(.*)\})?(?: as (\w+))?;?$")
HEAD = re.compile(r"^((?:abbrev |pub |unfoldable |record |data |syntax |infix\w* )*)([A-Za-z_◌][^\s:({]*)")


class File:
    """A file of definitions: what it is about, each name with the lines of its definition, and what its imports name."""

    def __init__(self, text):
        self.about = " ".join(it.removeprefix("--").strip() for it in itertools.takewhile(lambda it: it.startswith("--"), text.splitlines()))
        self.definitions, self.imports = {}, {}
        name = None
        for line in text.splitlines():
            if USE.match(line):
                self.imports.update(imports_of(line))
            elif line.startswith("--") or not line.strip():
                name = None
            else:
                head = HEAD.match(line)
                name = head[2] if head else name
                if name:
                    self.definitions.setdefault(name, []).append(line.partition("--")[0])

    def holds(self, name):
        """Returns the definition of which a name is a field or a constructor, or None."""
        part = re.compile(rf"(?<!\w){re.escape(name)}\s*:")
        return next((it for it, lines in self.definitions.items() if any(part.search(line) for line in lines)), None)


def imports_of(line):
    """Yields what a line imports: each name with its module and its name there; a module has none."""
    module, names, alias = USE.match(line).groups()
    if names is None:
        yield alias or module.rpartition(".")[2], (module, None)
        return
    for it in filter(None, map(str.strip, names.split(","))):
        name, _, other = it.partition(" as ")
        yield other.strip() or name, (module, name)


def files():
    """Returns the files of definitions by their modules, a crate behind those that it stands on."""
    found = {}
    for crate in stands_on(TOP):
        for folder, _, names in sorted(os.walk(f"{TOP}/crates/{crate}/specs")):
            for name in sorted(it for it in names if it.endswith(".antt")):
                path = os.path.relpath(f"{folder}/{name}", f"{TOP}/crates")
                found[f"Rattle.{path[:-5].replace('/', '.')}"] = File(read(f"{TOP}/crates/{path}"))
    return found


def resolved(found, module, name):
    """Returns the module and the name of the definition that an import names, or None where it is none of the repository's."""
    while name is not None and module in found:
        file = found[module]
        if name in file.definitions:
            return module, name
        if name not in file.imports:
            holder = file.holds(name)
            return (module, holder) if holder else None
        module, name = file.imports[name]
    return None


def named(found, imports, text, module=None):
    """Yields the definitions that a text names, with what its file imports; of a module's own text its own definitions too."""
    own = found[module].definitions if module else {}
    for name in set(NAME.findall(text)):
        if name in own:
            yield module, name
        elif name in imports:
            definition = resolved(found, *imports[name])
            if definition:
                yield definition


def contract(source, function):
    """Returns a function's signature and clauses, and what its file imports."""
    text = read(f"{TOP}/{source}")
    imports = {}
    for line in text.splitlines():
        if USE.match(line):
            imports.update(imports_of(line))
    begin = text.index(f"pub fn {function}<")
    clauses = text[begin : text.index("\n{\n", begin)]
    return re.sub(r"//.*", "", clauses), imports


def reached(source="crates/vm_top/src/top.rt", function="pagers_main"):
    """Returns the files whose definitions a function's contract reaches: what each is about, and their names, in the order of the file."""
    found = files()
    clauses, imports = contract(source, function)
    left = list(named(found, imports, clauses))
    seen = set(left)
    while left:
        module, name = left.pop()
        file = found[module]
        fresh = set(named(found, file.imports, "\n".join(file.definitions[name]), module)) - seen
        seen |= fresh
        left += fresh
    listed = {}
    for module, file in found.items():
        names = [it for it in file.definitions if (module, it) in seen]
        if names:
            listed[f"crates/{module.removeprefix('Rattle.').replace('.', '/')}.antt"] = file.about, names
    return listed


def rows(*words):
    """Returns these as the rows of a table."""
    return [f"| `{file}` | {about} | {', '.join(f'`{it}`' for it in names)} |" for file, (about, names) in reached(*words).items()]
