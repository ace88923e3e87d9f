"""A folder of WESL files as modules, packages and bundles."""

import json
import pathlib

from .parser import parse
from .source import SyntaxFault, read_source

ENDINGS = [".wesl", ".wgsl"]
ROOT_FILES = ["package", "lib"]
ORIGINS = ["package", "self", "super"]
ENTRY_POINTS = ["vertex", "fragment", "compute"]


class ProjectFault(Exception):
    """Something that is wrong with the folder or with what is asked of it."""


class Module:
    """A file with its path, and its tree or what is wrong with its text."""

    def __init__(self, path, file, shown):
        self.path, self.file, self.shown = path, file, shown
        self.source = self.fault = None
        try:
            self.source = read_source(file, str(file))
            self.unit = parse(self.source)
        except SyntaxFault as fault:
            self.source, self.fault, self.unit = fault.source, fault, {"form": 2, "syntax error": str(fault)}

    def declarations(self):
        return self.unit.get("declarations", [])


def words_of_attributes(tree):
    return [one if isinstance(one, str) else one["k"] for one in tree.get("attrs", [])]


def read_json(file):
    try:
        return json.loads(file.read_text(encoding="utf-8"))
    except ValueError as fault:
        raise ProjectFault(f"{file}: {fault}") from None


class Folder:
    """The modules below a folder, each under its components: `a/b.wesl` under (`a`, `b`), `package.wesl` or `lib.wesl` under ()."""

    def __init__(self, folder, path, left_out=(), shown_from=None):
        self.folder, self.path = folder, path
        self.modules = {}
        if not folder.is_dir():
            raise ProjectFault(f"{folder}: no such folder")
        found = [file for file in folder.rglob("*") if file.suffix in ENDINGS and file.is_file()]
        for file in sorted(found, key=lambda file: (file.parts[:-1], file.stem, ENDINGS.index(file.suffix))):
            inside = file.relative_to(folder).parts
            is_hidden = any(one.startswith(".") for one in inside)
            if not is_hidden and not any(left in file.resolve().parents for left in left_out):
                self.add(file, (*inside[:-1], file.stem), shown_from or folder)

    def add(self, file, components, shown_from):
        if len(components) == 1 and components[0] in ROOT_FILES:
            components = ()
        bad = [one for one in components if one in ORIGINS or ":" in one]
        if bad:
            raise ProjectFault(f"{file}: `{bad[0]}` names no module")
        if components in self.modules:
            before = self.modules[components].file
            if before.with_suffix("") == file.with_suffix(""):
                return  # of `a.wesl` and `a.wgsl` the first counts
            raise ProjectFault(f"{file}: {before} is the root module already")
        shown = file.relative_to(shown_from) if file.is_relative_to(shown_from) else file
        self.modules[components] = Module("::".join([self.path, *components]), file, shown.as_posix())

    def unit_at(self, components):
        return self.modules[components].unit if components in self.modules else {}

    def children(self, components):
        """The names directly below, of files and of folders alike."""
        depth = len(components)
        return sorted({one[depth] for one in self.modules if len(one) > depth and one[:depth] == components})

    def nested(self, components=()):
        """The modules below, as the form of packages nests them."""
        found = []
        for name in self.children(components):
            inner = (*components, name)
            one = {"name": name, "unit": self.unit_at(inner)}
            modules = self.nested(inner)
            found.append({**one, "modules": modules} if modules else one)
        return found


class Package:
    """A package: its name, its folder, and the packages that it uses."""

    def __init__(self, name, path, folder, dependencies, shown_from):
        self.name, self.dependencies = name, dependencies
        self.folder = Folder(folder, path, shown_from=shown_from)

    def tree(self):
        found = {"name": self.name, "unit": self.folder.unit_at(())}
        for key, value in [("modules", self.folder.nested()), ("dependencies", [one.tree() for one in self.dependencies])]:
            if value:
                found[key] = value
        return found

    def all_modules(self):
        yield from self.folder.modules.values()
        for one in self.dependencies:
            yield from one.all_modules()


class Project:
    """A folder with its packages, and what its `project.json` says, if there is one.

    `packages` gives the folders of packages by name; `a/b` is the package `b` that `a` uses. What `project.json` names as packages
    lies in the folder `packages`.
    """

    def __init__(self, folder, packages=None):
        self.folder = pathlib.Path(folder)
        self.description_file = self.folder / "project.json"
        self.description = read_json(self.description_file) if self.description_file.is_file() else {}
        wanted = {}
        self.described_packages(self.description.get("packages", {}), "", wanted)
        for name, where in (packages or {}).items():
            wanted[name] = pathlib.Path(where)
        for name in wanted:
            above = name.rpartition("/")[0]
            if above and above not in wanted:
                raise ProjectFault(f"the package `{above}`, which is to use `{name.rpartition('/')[2]}`, is not given")
        left_out = [where.resolve() for where in wanted.values()]
        self.own = Folder(self.folder, "package", [one for one in left_out if one != self.folder.resolve()])
        self.packages = self.packages_below("", wanted)
        if not self.own.modules and not self.packages:
            raise ProjectFault(f"{self.folder}: no file `*.wesl` or `*.wgsl` in it")

    def described_packages(self, described, above, wanted):
        for name, one in described.items():
            wanted[above + name] = self.folder / "packages" / one.get("dir", name)
            self.described_packages(one.get("dependencies", {}), f"{above}{name}/", wanted)

    def packages_below(self, above, wanted):
        found = []
        for name, where in sorted(wanted.items(), key=lambda one: one[0].split("/")):
            if name.startswith(above) and name != above and "/" not in name[len(above):]:
                found.append(Package(name[len(above):], name, where, self.packages_below(f"{name}/", wanted), self.folder))
        return found

    def all_modules(self):
        yield from self.own.modules.values()
        for one in self.packages:
            yield from one.all_modules()

    def module_at(self, path):
        return next((one for one in self.all_modules() if one.path == path), None)

    def default_root(self):
        if "root" in self.description:
            return self.description["root"]
        paths = [one.path for one in self.own.modules.values()]
        for path in ["package::main", "package"]:
            if path in paths:
                return path
        if len(paths) == 1:
            return paths[0]
        raise ProjectFault(f"{self.folder}: none of its modules is named `main`; name the root by --root: {', '.join(paths)}")

    def entry_points(self, root, features):
        """The entry points that the root declares and the features leave."""
        module = self.module_at(root)
        if module is None:
            raise ProjectFault(f"no module has the path `{root}` of the root")
        if module.fault is not None:
            raise module.fault
        found = []
        for one in left_by(module.declarations(), features):
            if one["k"] == "fn" and any(word in ENTRY_POINTS for word in words_of_attributes(one)) and one["name"] not in found:
                found.append(one["name"])
        return found

    def bundle(self, root, keep, features, **options):
        """The bundle of all modules and packages, its trees in form 2."""
        modules = [{"path": one.path, "unit": one.unit} for _, one in sorted(self.own.modules.items(), key=lambda one: one[0])]
        found = {"root": root, "keep": keep, "modules": modules, "form": 2, **options}
        if self.packages:
            found["packages"] = [one.tree() for one in self.packages]
        if features is not None:
            found["features"] = features
        return found


def value_of(formula, features):
    """True, False, or None where a formula stays undecided, or is none."""
    word = formula.get("k")
    if word in ("true", "false"):
        return word == "true"
    if word is None:
        answer = features.get("flags", {}).get(formula["name"], features.get("default", "disable"))
        return {"enable": True, "disable": False}.get(answer)
    if word == "paren":
        return value_of(formula["expr"], features)
    if word == "unary" and formula["op"] == "!":
        inner = value_of(formula["expr"], features)
        return None if inner is None else not inner
    if word == "binary" and formula["op"] in ("&&", "||"):
        decides = formula["op"] == "||"
        sides = [value_of(formula[side], features) for side in ("left", "right")]
        return decides if decides in sides else None if None in sides else not decides
    return None


def left_by(elements, features):
    """The elements of a list that the features leave; with None all are."""
    taken = False
    for one in elements:
        if one["k"] == "void":
            continue
        condition = next((attr for attr in one.get("attrs", []) if attr["k"] in ("if", "elif", "else")), None)
        if condition is None or features is None:
            yield one
            continue
        if condition["k"] == "if":
            taken = False
        value = not taken and (True if condition["k"] == "else" else value_of(condition["expr"], features))
        taken = taken or value is True
        if value is not False:
            yield one
