"""Where modules ask for other modules, items and names."""


def joined(path, module_path):
    """A path in a module, from outside: that of RULES.md, Paths."""
    origin, *inner = module_path.split("::")
    first, *rest = path.split("::")
    if first == "package":
        return "::".join([origin, *rest])
    if first in ("self", "super"):
        ups = 0
        pieces = path.split("::")
        while pieces and pieces[0] == "super":
            pieces, ups = pieces[1:], ups + 1
        pieces = pieces[1:] if pieces and pieces[0] == "self" else pieces
        return "::".join([origin, *inner[:max(0, len(inner) - ups)], *pieces])
    return path if origin == "package" else "::".join([f"{origin}/{first}", *rest])


def items_of(content, components):
    """Each item of an import's content: the components before it, its name, the name that it binds."""
    if "list" in content:
        for entry in content["list"]:
            yield from items_of(entry["content"], [*components, *entry.get("path", [])])
    else:
        yield components, content["item"], content.get("as", content["item"])


def imports_of(module):
    """The imports with a target: the module's path from outside, the item, the bound name, the span."""
    for one in module.unit.get("imports", []):
        for components, item, bound in items_of(one["content"], []):
            if "path" in one:
                yield "::".join([joined(one["path"], module.path), *components]), item, bound, one["span"]
            elif components:
                yield "::".join(components), item, bound, one["span"]


def named_parts(tree, span):
    """Each type and each identifier of a tree: its path or None, its name, the span round it."""
    if isinstance(tree, list):
        for one in tree:
            yield from named_parts(one, span)
    elif isinstance(tree, dict):
        span = tree.get("span", span)
        if "k" not in tree and "name" in tree and "ty" not in tree:
            yield tree.get("path"), tree["name"], span
        for key, value in tree.items():
            if key in ("ty", "ret") and isinstance(value, str):
                yield None, value, span
            elif key not in ("content", "names"):
                yield from named_parts(value, span)


def references_of(module):
    """All that a module asks other modules for: path, item, span; of imports, and of names with a path."""
    bound = {}
    for path, item, name, span in imports_of(module):
        bound.setdefault(name, []).append(f"{path}::{item}")
        yield path, item, span
    for path, name, span in named_parts(module.unit.get("declarations", []), [0, 0]):
        if path is not None:
            first, *rest = path.split("::")
            for start in bound.get(first, []):
                yield "::".join([start, *rest]), name, span
            yield joined(path, module.path), name, span


def places_that_ask(modules, is_asked):
    """The places of the references for whose path and item `is_asked` holds."""
    for module in modules:
        for path, item, span in references_of(module):
            if is_asked(path, item):
                yield module, span


def calls_of(tree, span):
    """Each call in a tree: what is called, with how many arguments, and the span round it."""
    if isinstance(tree, list):
        for one in tree:
            yield from calls_of(one, span)
    elif isinstance(tree, dict):
        span = tree.get("span", span)
        if "ty" in tree and "name" not in tree:
            yield tree["ty"], len(tree.get("args", [])), span
        for value in tree.values():
            yield from calls_of(value, span)


def places_of_calls(modules, symbol, count):
    """The places where a module calls an item, by its own name, by an import's or by a path, with so many arguments."""
    for module in modules:
        own = {symbol[1]} if module.path == symbol[0] else set()
        names = own | {bound for path, item, bound, _ in imports_of(module) if (path, item) == symbol}
        for ty, args, span in calls_of(module.unit.get("declarations", []), [0, 0]):
            called = {"name": ty} if isinstance(ty, str) else ty
            is_meant = called["name"] in names if "path" not in called else (joined(called["path"], module.path), called["name"]) == symbol
            if is_meant and count in (None, args):
                yield module, span


def local_names(tree):
    """The names that a function declares, parameters too, each with the span round it."""
    left = [(tree, tree.get("span", [0, 0]))]
    while left:
        value, span = left.pop()
        if isinstance(value, list):
            left += [(one, span) for one in value]
        elif isinstance(value, dict):
            span = value.get("span", span)
            if value is not tree and "name" in value and ("ty" in value or "init" in value) and value.get("k") != "call":
                yield value["name"], span
            left += [(one, span) for one in value.values()]


def places_of_name(modules, wanted):
    """The places where a name without a path is used."""
    for module in modules:
        for path, name, span in named_parts(module.unit.get("declarations", []), [0, 0]):
            if path is None and name == wanted:
                yield module, span


def binders_of(module, wanted):
    """The places where a module declares or imports a name."""
    for one in module.declarations():
        if one.get("name") == wanted:
            yield module, one["span"]
    for _, _, name, span in imports_of(module):
        if name == wanted:
            yield module, span


def reachable(root, modules):
    """The modules that a link from the root may load, and perhaps some more: all to which imports and paths lead."""
    by_path = {one.path: one for one in modules}
    found, left = set(), [root]
    while left:
        path = left.pop()
        if path in by_path and path not in found:
            found.add(path)
            for target, item, _ in references_of(by_path[path]):
                left += [target, f"{target}::{item}"]
    return found
