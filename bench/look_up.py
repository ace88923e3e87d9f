"""What a bundle links to, by docs/RULES.md alone: a second judge for bench/choices, in Python and independent of the program.

`answer(bundle, rules)` gives the faults that stand, or the linked unit with its map, as the program writes them under the mangler
`escape` with `mangle_root`. It takes bundles of form 1 whose trees are written in the short forms, with `root`, `keep`, `modules`,
`packages` and `eager`; no `features` (all conditions stay), no directives, no limit. Whether names clash it does not say.

`Rules` holds what bench/choices plants faults in, each rule in a method of its own; a subclass changes one of them.
"""
import itertools

MOST_FLAGS = 16
CONDITIONS = ("if", "elif", "else")
OPERATORS = {"&&": lambda one, other: one & other, "||": lambda one, other: one | other}


# ---- Paths: an origin, which is `OWN`, a number of levels or the name of a package, and components.

OWN = ("package",)


def path_of_text(text):
    pieces = text.split("::")
    if pieces[0] in ("package", "self"):
        return (OWN if pieces[0] == "package" else 0, tuple(pieces[1:]))
    levels = len(list(itertools.takewhile(lambda piece: piece == "super", pieces)))
    return (levels or pieces[0], tuple(pieces[levels or 1:]))


def text_of_path(path):
    return "::".join(["package" if path[0] == OWN else path[0], *path[1]])


def joined(path, module):
    origin, components = path
    if origin == OWN:
        return (module[0], components)
    if isinstance(origin, int):
        return (module[0], module[1][:max(0, len(module[1]) - origin)] + components)
    return (origin if module[0] == OWN else f"{module[0]}/{origin}", components)


def order_of_path(path):
    return (path[0] != OWN, b"" if path[0] == OWN else path[0].encode(), [piece.encode() for piece in path[1]])


def escaped(name):
    count = name.count("_")
    return f"_{count}{name}" if count else name


def printed(symbol):
    """The name of a module's item under the mangler `escape`."""
    (origin, components), item = symbol
    parts = ["package"] if origin == OWN else origin.split("/")
    head = [escaped(part) for part in parts]
    return "_".join((["import", str(len(parts))] if len(parts) > 1 else []) + head + [escaped(name) for name in (*components, item)])


# ---- Conditions.

def condition_attributes(element):
    """The conditional attributes of an element, as pairs of word and formula."""
    found = [(one, None) if isinstance(one, str) else (one["k"], one.get("expr")) for one in element.get("attrs", [])]
    return [one for one in found if one[0] in CONDITIONS]


def flags_in(tree):
    """The spellings of the identifiers below a formula, in document order."""
    if isinstance(tree, str):
        return [tree]
    if isinstance(tree, list):
        return [flag for one in tree for flag in flags_in(one)]
    if not isinstance(tree, dict):
        return []
    own = [tree["name"]] if "k" not in tree else []
    return own + [flag for key in ("ty", "expr", "base", "left", "index", "right", "args") for flag in flags_in(tree.get(key, []))]


def is_formula(tree):
    if isinstance(tree, (bool, str)):
        return True
    kind = tree.get("k")
    if kind is None:
        return "args" not in tree
    if kind == "binary":
        return tree["op"] in OPERATORS and is_formula(tree["left"]) and is_formula(tree["right"])
    return (kind == "paren" or kind == "unary" and tree["op"] == "!") and is_formula(tree["expr"])


class Choices:
    """The choices of a module's flags. A set of them is a number, bit k of which stands for the choice k, and bit i of k for flag i."""

    def __init__(self, flags):
        self.flags = list(dict.fromkeys(flags))
        self.too_many = len(self.flags) > MOST_FLAGS
        count = 0 if self.too_many else 2 ** len(self.flags)
        self.all = 2 ** count - 1
        self.having = {} if self.too_many else {
            flag: sum(1 << choice for choice in range(count) if choice >> index & 1) for index, flag in enumerate(self.flags)}

    def where(self, formula):
        """The choices under which a formula is true."""
        if self.too_many or isinstance(formula, bool):
            return self.all if formula is True else 0
        if isinstance(formula, str) or "k" not in formula:
            return self.having[formula if isinstance(formula, str) else formula["name"]]
        if formula["k"] == "binary":
            return OPERATORS[formula["op"]](self.where(formula["left"]), self.where(formula["right"]))
        inner = self.where(formula["expr"])
        return inner if formula["k"] == "paren" else self.all & ~inner


def chains(elements):
    """The elements of a judged list in chains, voids left out; an element without a condition is a chain of its own."""
    found = []
    for element in elements:
        words = [word for word, _ in condition_attributes(element)]
        if words and "if" not in words and found and condition_attributes(found[-1][-1]):
            found[-1].append(element)
        elif element.get("k") != "void":
            found.append([element])
    return found


def has_fault(chain):
    """Whether a fault of a condition stands in a chain, whatever the flags answer."""
    before = []
    for element in chain:
        conditions = condition_attributes(element)
        words = [word for word, _ in conditions]
        is_orphan = len(words) == 1 and words[0] != "if" and not {"if", "elif"} & set(before)
        if len(words) > 1 or is_orphan or any(word != "else" and not is_formula(formula) for word, formula in conditions):
            return True
        before = words
    return False


# ---- Modules.

class Binder:
    """A binder at the level of a module, with a target: where it stands, as the set of choices that keep it."""

    def __init__(self, name, target, kept, declares, published):
        self.name, self.target, self.kept = name, target, kept
        self.declares, self.published = declares, published


class Reference:
    def __init__(self, tree, kept, is_local):
        self.path = tree.get("path") if isinstance(tree, dict) else None
        self.name = tree if isinstance(tree, str) else tree["name"]
        self.kept, self.is_local = kept, is_local


class Walk:
    """Goes through a declaration in document order with its blocks and its judged lists, and makes it anew: `refer` gives what a
    reference is written as. A block is the list of sets of names round a place, the innermost last; the module's is left out."""

    def __init__(self, module, refer):
        self.module, self.rules, self.refer = module, module.rules, refer

    def judged(self, elements, kept):
        """For each element of a judged list the choices that keep it. A void has those of what holds it."""
        found = {id(element): kept for element in elements}
        for chain in chains(elements):
            left = kept
            for element in chain if not has_fault(chain) else ():
                conditions = condition_attributes(element)
                own = self.module.choices.where(conditions[0][1]) if conditions and conditions[0][0] != "else" else self.module.choices.all
                found[id(element)] = left & own
                left = self.rules.after_branch(left, own)
        return found

    def type(self, tree, blocks, kept):
        name = tree if isinstance(tree, str) else tree["name"]
        is_local = not (isinstance(tree, dict) and "path" in tree) and any(name in block for block in blocks)
        name = self.refer(Reference(tree, kept, is_local))
        if isinstance(tree, dict) and "args" in tree:
            return {"name": name, "args": self.expressions(tree["args"], blocks, kept)}
        return name

    def expressions(self, trees, blocks, kept):
        return [self.expression(tree, blocks, kept) for tree in trees]

    def expression(self, tree, blocks, kept):
        if isinstance(tree, bool) or isinstance(tree, dict) and tree.get("k") in ("lit", "default"):
            return tree
        if isinstance(tree, str) or "k" not in tree:
            return self.type(tree, blocks, kept)
        return self.parts(tree, blocks, kept, ["ty", "expr", "base", "left", "index", "right", "args"])

    def parts(self, tree, blocks, kept, keys):
        """A node made anew, in which these keys hold types, expressions and lists of them."""
        found = dict(tree)
        if "attrs" in tree:
            found["attrs"] = self.attributes(tree["attrs"], blocks, kept)
        for key in keys:
            if key in tree:
                walk = self.expressions if isinstance(tree[key], list) else self.type if key in ("ty", "ret") else self.expression
                found[key] = walk(tree[key], blocks, kept)
        return found

    def attributes(self, attributes, blocks, kept):
        return [one if isinstance(one, str) or one["k"] in CONDITIONS else self.parts(one, blocks, kept, ["expr", "x", "y", "z", "args"])
                for one in attributes]

    def declaration(self, tree, kept):
        kind = tree["k"]
        if kind == "fn":
            return self.function(tree, kept)
        if kind == "struct":
            found = self.parts(tree, [], kept, [])
            if "members" in tree:
                judged = self.judged(tree["members"], kept)
                found["members"] = [self.parts(one, [], self.rules.inside(kept, judged[id(one)]), ["ty"]) for one in tree["members"]]
            return found
        return self.parts(tree, [], kept, ["ty", "init", "expr"])

    def function(self, tree, kept):
        found, block = self.parts(tree, [], kept, []), set()
        if "params" in tree:
            judged = self.judged(tree["params"], kept)
            found["params"] = [self.parts(one, [], self.rules.inside(kept, judged[id(one)]), ["ty"]) for one in tree["params"]]
            block = {one["name"] for one in tree["params"]}
        if "ret_attrs" in tree:
            found["ret_attrs"] = self.attributes(tree["ret_attrs"], [], kept)
        if "ret" in tree:
            found["ret"] = self.type(tree["ret"], [], kept)
        found["body"] = self.body(tree["body"], [], [block], kept)
        return found

    def body(self, tree, outside, blocks, kept):
        """A body whose attributes stand in `outside` and whose statements in `blocks`."""
        return self.body_before(tree, outside, blocks, kept, {"k": "void"})[0]

    def body_before(self, tree, outside, blocks, kept, last):
        """A body, and the choices that keep the part of its holder that is the last element of its list."""
        statements = tree.get("stmts", [])
        judged = self.judged([*statements, last], kept)
        found = dict(tree)
        if "attrs" in tree:
            found["attrs"] = self.attributes(tree["attrs"], outside, kept)
        if statements:
            found["stmts"] = [self.statement(one, blocks, self.rules.inside(kept, judged[id(one)])) for one in statements]
        return found, self.rules.inside(kept, judged[id(last)])

    def statement(self, tree, blocks, kept):
        kind = tree["k"]
        if kind in ("const", "override", "let", "var"):
            found = self.parts(tree, blocks, kept, ["ty", "init"])
            blocks[-1].add(tree["name"])
            return found
        if kind in ("if", "switch", "loop", "for", "while", "block"):
            return getattr(self, f"{kind}_statement")(tree, blocks, kept)
        if kind == "call":
            return {**self.parts(tree, blocks, kept, []), "call": self.parts(tree["call"], blocks, kept, ["ty", "args"])}
        return self.parts(tree, blocks, kept, ["lhs", "rhs", "expr"])

    def inner(self, tree, blocks, kept):
        return self.body(tree, blocks, [*blocks, set()], kept)

    def block_statement(self, tree, blocks, kept):
        return self.inner(tree, blocks, kept)

    def if_statement(self, tree, blocks, kept):
        found = self.parts(tree, blocks, kept, ["cond"])
        found["body"] = self.inner(tree["body"], blocks, kept)
        if "elifs" in tree:
            found["elifs"] = [{**self.parts(one, blocks, kept, ["cond"]), "body": self.inner(one["body"], blocks, kept)} for one in tree["elifs"]]
        if "else" in tree:
            found["else"] = {**self.parts(tree["else"], blocks, kept, []), "body": self.inner(tree["else"]["body"], blocks, kept)}
        return found

    def switch_statement(self, tree, blocks, kept):
        found = self.parts(tree, blocks, kept, ["expr"])
        if "body_attrs" in tree:
            found["body_attrs"] = self.attributes(tree["body_attrs"], blocks, kept)
        judged, clauses = self.judged(tree.get("clauses", []), kept), []
        for one in tree.get("clauses", []):
            here = self.rules.inside(kept, judged[id(one)])
            clauses.append({**self.parts(one, blocks, here, ["cases"]), "body": self.inner(one["body"], blocks, here)})
        return {**found, "clauses": clauses} if clauses else found

    def loop_statement(self, tree, blocks, kept):
        found, inside = self.parts(tree, blocks, kept, []), [*blocks, set()]
        if "continuing" not in tree:
            return {**found, "body": self.body(tree["body"], blocks, inside, kept)}
        found["body"], here = self.body_before(tree["body"], blocks, inside, kept, tree["continuing"])
        return {**found, "continuing": self.continuing(tree["continuing"], inside, here)}

    def continuing(self, tree, blocks, kept):
        found, inside = self.parts(tree, blocks, kept, []), [*blocks, set()]
        if "break_if" not in tree:
            return {**found, "body": self.body(tree["body"], blocks, inside, kept)}
        found["body"], here = self.body_before(tree["body"], blocks, inside, kept, tree["break_if"])
        return {**found, "break_if": self.parts(tree["break_if"], inside, here, ["expr"])}

    def for_statement(self, tree, blocks, kept):
        found, inside = self.parts(tree, blocks, kept, []), [*blocks, set()]
        if "init" in tree:
            found["init"] = self.statement(tree["init"], inside, kept)
        if "cond" in tree:
            found["cond"] = self.expression(tree["cond"], inside, kept)
        if "update" in tree:
            found["update"] = self.statement(tree["update"], [*inside, set()], kept)
        return {**found, "body": self.body(tree["body"], inside, inside, kept)}

    def while_statement(self, tree, blocks, kept):
        return {**self.parts(tree, blocks, kept, ["cond"]), "body": self.inner(tree["body"], blocks, kept)}


def conditions_below(tree):
    """The formulas of all `@if` and `@elif` of a tree."""
    if isinstance(tree, list):
        return [formula for one in tree for formula in conditions_below(one)]
    if not isinstance(tree, dict):
        return []
    if tree.get("k") in ("if", "elif") and set(tree) == {"k", "expr"}:
        return [tree["expr"]]
    return [formula for one in tree.values() for formula in conditions_below(one)]


def imported(statement, module):
    """Of each item of an import statement its bound name and its target; None for one without."""
    def items(content, path):
        if "item" in content:
            yield content.get("as", content["item"]), (path, content["item"]) if path else None
            return
        for entry in content["list"]:
            pieces = tuple(entry.get("path", []))
            inner = (path[0], path[1] + pieces) if path else (pieces[0], pieces[1:]) if pieces and path is None else ()
            yield from items(entry["content"], inner)

    path = joined(path_of_text(statement["path"]), module) if "path" in statement else None
    return items(statement["content"], path)


class Module:
    """A module that is loaded: its binders by their names, and its declarations."""

    def __init__(self, path, unit, rules):
        self.path, self.unit, self.rules = path, unit, rules
        self.choices = Choices([flag for formula in conditions_below(unit) for flag in flags_in(formula)])
        self.declarations = unit.get("declarations", [])
        self.kept = Walk(self, None).judged(self.declarations, self.choices.all)
        self.binders = {}
        imports = unit.get("imports", [])
        judged = Walk(self, None).judged(imports, self.choices.all)
        for statement in imports:
            for name, target in imported(statement, path):
                if target:
                    self.bind(Binder(name, target, judged[id(statement)], False, "publish" in statement.get("attrs", [])))
        for one in self.declarations:
            if "name" in one:
                self.bind(Binder(one["name"], (path, one["name"]), self.kept[id(one)], True, True))

    def bind(self, binder):
        self.binders.setdefault(binder.name, []).append(binder)

    def of_name(self, name):
        return self.binders.get(name, [])

    def declares(self, name):
        return any(one.declares for one in self.of_name(name))

    def is_split(self, name):
        return len(targets(self.of_name(name))) > 1

    def references(self, declaration):
        found = []
        Walk(self, lambda one: found.append(one) or one.name).declaration(declaration, self.kept[id(declaration)])
        return found

    def rewritten(self, declaration, names):
        """The declaration with these names for its references, in their order."""
        names = iter(names)
        return Walk(self, lambda _: next(names)).declaration(declaration, self.kept[id(declaration)])


def targets(binders):
    return {one.target for one in binders}


# ---- Look-ups.

class Fault(Exception):
    """What stands where a look-up leads nowhere: the name of the fault and its arguments."""

    def __init__(self, name, *args):
        super().__init__(name)
        self.told = (name, tuple(args))


class Rules:
    """The rules in which bench/choices plants its faults. A set of choices tells a place by what keeps it."""

    def after_branch(self, left, own):
        """The choices that are left to the branches behind one: those that have not picked it."""
        return left & ~own

    def inside(self, _outside, kept):
        """The choices that keep what stands in an element of an inner list: those that keep the element."""
        return kept

    def binders(self, module, name):
        """The binders of a split name that are looked at."""
        return module.of_name(name)

    def together(self, binders, kept):
        """Those that are alive together with a place."""
        return [one for one in binders if one.kept & kept]

    def plain(self, module, name, kept):
        """The binders of a split name that a reference without a path sees."""
        return self.together(self.binders(module, name), kept)

    def start(self, module, name, kept):
        """The imports that the beginning of a path sees."""
        imports = [one for one in module.of_name(name) if not one.declares]
        return self.together(imports, kept) if module.is_split(name) else imports

    def asks(self, is_own, places):
        """From where a module asks: its places in itself, None from outside."""
        return places if is_own else None


def resolver_text(bundle, path):
    """The unit at a path, or the text with which it is refused."""
    origin, components = path
    if origin == OWN:
        units = [one["unit"] for one in bundle["modules"] if path_of_text(one["path"]) == path]
        return (units[-1], None) if units else (None, "virtual module")
    parts, packages, found = origin.split("/"), bundle.get("packages", []), None
    for index, part in enumerate(parts):
        found = next((one for one in packages if one["name"] == part), None)
        if found is None:
            return None, f"dependency `{part}` not found in package path `{origin}`" if index else f"dependency `{origin}` not found"
        packages = found.get("dependencies", [])
    for component in components:
        inner = next((one for one in found.get("modules", []) if one["name"] == component), None)
        if inner is None:
            return None, f"in module `{found['name']}`, no submodule named `{component}`"
        found = inner
    return found["unit"], None


class Link:
    """The least sets of entered modules and reached symbols, and the faults that stand."""

    def __init__(self, bundle, rules):
        self.bundle, self.rules, self.is_eager = bundle, rules, bundle.get("eager", False)
        self.modules, self.reached, self.faults, self.left = {}, set(), set(), []
        self.meanings = {}
        self.root = path_of_text(bundle["root"])
        if self.enter(self.root):
            for name in [] if self.is_eager else bundle.get("keep", []):
                self.follow(lambda name=name: self.look_up(self.root, name, None))
        while self.left:
            module, declaration = self.left.pop()
            self.meanings[id(declaration)] = [
                self.follow(lambda one=one: self.denoted(module, one)) for one in module.references(declaration)]

    def follow(self, ask):
        """What a look-up leads to; a fault is told, and a symbol reached."""
        try:
            found = ask()
        except Fault as fault:
            self.faults.add(fault.told)
            return None
        if found[0] == "symbol":
            self.reach(found[1])
        return found

    def enter(self, path):
        """The module at a path, if the resolver has it."""
        if path not in self.modules:
            unit, refusal = resolver_text(self.bundle, path)
            self.modules[path] = None if unit is None else Module(path, unit, self.rules)
            if unit is None:
                self.faults.add(("ModuleNotFound", (text_of_path(path), refusal)))
            else:
                self.load(self.modules[path])
        return self.modules[path]

    def load(self, module):
        for name, binders in module.binders.items():
            pairs = itertools.combinations(binders, 2)
            if any(one.target != other.target and one.kept & other.kept for one, other in pairs):
                self.faults.add(("DuplicateSymbol", (name,)))
            if module.is_split(name) and module.choices.too_many:
                self.faults.add(("TooManyFlags", (text_of_path(module.path),)))
        self.left += [(module, one) for one in module.declarations if one["k"] == "assert"]
        if self.is_eager:
            for name, binders in module.binders.items():
                if module.declares(name):
                    self.reach((module.path, name))
                for one in binders:
                    self.enter(one.target[0])

    def reach(self, symbol):
        if symbol not in self.reached:
            self.reached.add(symbol)
            module = self.modules[symbol[0]]
            self.left += [(module, one) for one in module.declarations if one.get("name") == symbol[1]]

    def denoted(self, module, reference):
        name, kept = reference.name, reference.kept
        if reference.path is not None:
            path = self.inline_path(module, path_of_text(reference.path), kept)
            return self.look_up(path, name, self.rules.asks(path == module.path, [kept]))
        if reference.is_local:
            return ("local", name)
        seen = self.rules.plain(module, name, kept) if module.is_split(name) else module.of_name(name)
        return self.led(module, name, seen, ()) if seen else ("free", name)

    def inline_path(self, module, path, kept):
        origin, components = path
        seen = self.rules.start(module, origin, kept) if isinstance(origin, str) else []
        if len(targets(seen)) > 1:
            raise Fault("AmbiguousSymbol", origin)
        if not seen:
            return joined(path, module.path)
        start, item = seen[0].target
        return (start[0], start[1] + (item,) + components)

    def led(self, module, name, seen, met):
        """Where binders that are seen lead."""
        if len(targets(seen)) > 1:
            raise Fault("AmbiguousSymbol", name)
        if any(one.declares for one in seen):
            return ("symbol", (module.path, name))
        path, item = seen[0].target
        places = self.rules.asks(path == module.path, [one.kept for one in seen])
        if places is not None and module.is_split(item) and not self.find_alike(module, item, places):
            raise Fault("AmbiguousSymbol", name)
        return self.look_up(path, item, places, met)

    def look_up(self, path, name, places, met=()):
        """Where a name of a module leads, asked from outside (None) or from places of the module itself."""
        module = self.enter(path)
        if module is None:
            raise Fault("ModuleNotFound", text_of_path(path), resolver_text(self.bundle, path)[1])
        missing = Fault("MissingDecl", text_of_path(path), name)
        binders, is_split = module.of_name(name), module.is_split(name)
        if (path, name) in met or not binders:
            raise missing
        met = (*met, (path, name))
        if not is_split and module.declares(name):
            return ("symbol", (path, name))
        if is_split and places is not None:
            return self.led(module, name, self.seen_from(module, name, places, missing), met)
        looked_at = self.rules.binders(module, name) if is_split else binders
        seen = [one for one in looked_at if places is not None or one.published and (one.kept or not is_split)]
        if not seen:
            raise Fault("Private", name, text_of_path(path)) if any(not one.published for one in binders) else missing
        return self.led(module, name, seen, met)

    def seen_by_each(self, module, name, places):
        return [self.rules.together(self.rules.binders(module, name), kept) for kept in places]

    def seen_from(self, module, name, places, missing):
        """The binders of a split name that are seen from these places of its own module, which find it alike."""
        each = self.seen_by_each(module, name, places)
        if not all(each):
            raise missing
        if any(len(targets(seen)) > 1 for seen in each):
            raise Fault("AmbiguousSymbol", name)
        return list({id(one): one for seen in each for one in seen}.values())

    def find_alike(self, module, name, places):
        """Whether one may ask for a split name of the module for all that stand at these places. Where one finds nothing, or two
        targets, that is told as it is of one alone."""
        each = self.seen_by_each(module, name, places)
        if not all(each) or any(len(targets(seen)) > 1 for seen in each) or all(seen == each[0] for seen in each):
            return True
        if len({target for seen in each for target in targets(seen)}) > 1:
            return False
        path, item = each[0][0].target
        return all(any(one.declares for one in seen) for seen in each) or path != module.path or not module.is_split(item)


def answer(bundle, rules):
    """The set of standing faults, and where it is empty the linked unit and its map."""
    link = Link(bundle, rules)
    if link.faults:
        return link.faults, None, None
    loaded = sorted((one for one in link.modules.values()), key=lambda one: (one.path != link.root, order_of_path(one.path)))
    declarations, names = [], {}
    for module in loaded:
        for one in module.declarations:
            symbol = (module.path, one.get("name"))
            own = {"name": printed(symbol)} if "name" in one else {}
            if own:
                names[own["name"]] = [text_of_path(module.path), one["name"]]
            if one["k"] == "assert" or symbol in link.reached:
                written = [printed(meant[1]) if meant[0] == "symbol" else meant[1] for meant in link.meanings[id(one)]]
                declarations.append({**module.rewritten(one, written), **own})
    return link.faults, {"declarations": declarations} if declarations else {}, names
