"""The links that a `project.json` describes: each of its feature sets under each of its manglers, and its single bundles."""

import json

from .link import TOP


class Case:
    """One link of a project: its name, the feature set and the mangler in words, and its bundle."""

    def __init__(self, name, features, mangler, root, bundle, described):
        self.name, self.features, self.mangler = name, features, mangler
        self.root, self.bundle = root, bundle
        self.marked = described.get("not_compiling", {}).get(name)
        self.results, self.input = described.get("run", {}).get(name), described.get("run_input", [])


def builtins():
    return json.loads((TOP / "docs/wgsl_builtins.json").read_text(encoding="utf-8"))


def kept_names(project, root, features):
    """The entry points of the root; of one that is not read none, and the link tells its fault."""
    module = project.module_at(root)
    return [] if module is not None and module.fault is not None else project.entry_points(root, features)


def case_of(project, name, options):
    """The case of the options of one bundle: `root`, `keep`, `features` (the name of a set, or null), `mangler` and so on."""
    described = project.description
    sets = described.get("features", {})
    chosen = options.get("features", next(iter(sets), None))
    features = sets[chosen] if chosen is not None else None if "features" in options else {}
    root = options.get("root", project.default_root())
    keep = options.get("keep", described.get("keep"))
    if keep is None:
        keep = kept_names(project, root, features)
    mangler = options.get("mangler", "escape")
    more = {key: value for key, value in options.items() if key in ("mangle_root", "eager", "max_modules")}
    if options.get("validate", True):
        more["builtins"] = builtins()
    shown = chosen if chosen is not None else "unjudged" if "features" in options else "none named"
    return Case(name, shown, mangler, root, project.bundle(root, keep, features, mangler=mangler, **more), described)


def cases_of(project):
    """All cases; where no feature set is named, every flag is disabled, and where no mangler is, `escape` is taken."""
    described = project.description
    for features in described.get("features", {}) or {"plain": {}}:
        for mangler in described.get("manglers", ["escape"]):
            options = {"features": features} if "features" in described else {}
            yield case_of(project, f"{features}-{mangler}", {**options, "mangler": mangler})
    for name, options in described.get("bundles", {}).items():
        yield case_of(project, name, options)
