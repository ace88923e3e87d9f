"""Bundles at random for bench/choices: modules and packages that import each other under conditions of three flags.

A name of a module is bound once, or several times under conditions: by a chain of imports, or by imports and declarations apart,
which mostly exclude each other. Uses stand in constants, functions with blocks, structures and assertions, alone, behind a path or
as the beginning of one, and mostly under a condition that leaves one binder; some links are eager, and some bundles have faults.
"""

FLAGS = ["A", "B", "C"]
NAMES = ["f", "g", "h", "k"]
ROOT = "package::m"
OWN_MODULES = [ROOT, "package::a", "package::b", "package::a::c"]
PACKAGE_MODULES = ["p", "p::q", "p/d"]


def negated(formula):
    return {"k": "unary", "op": "!", "expr": formula}


def both(one, other):
    return one if other is None else other if one is None else {"k": "binary", "op": "&&", "left": one, "right": other}


def condition(formula, word="if"):
    return [] if formula is None else [{"k": word, "expr": formula}]


def node(**members):
    """A node without what is empty."""
    return {key: value for key, value in members.items() if value not in (None, [])}


class Group:
    """How a module binds a name: for each of its binders the target, what it has as its condition, and when it is there."""

    def __init__(self, name, branches, is_chain):
        self.name, self.branches, self.is_chain = name, branches, is_chain


class Maker:
    def __init__(self, source):
        self.source = source
        self.with_packages = source.random() < 0.4
        self.paths = OWN_MODULES + (PACKAGE_MODULES if self.with_packages else [])
        # The names that each module binds, so that most imports lead somewhere.
        self.bound = {path: source.sample(NAMES, source.randrange(1, 4)) for path in self.paths}

    def chance(self, part):
        return self.source.random() < part

    # ---- Conditions.

    def formula(self, depth=1):
        sort = self.source.random()
        if depth and sort < 0.25:
            op = self.source.choice(["&&", "||"])
            return {"k": "binary", "op": op, "left": self.formula(depth - 1), "right": self.formula(depth - 1)}
        if sort < 0.45:
            return negated(self.formula(depth - 1) if depth else self.source.choice(FLAGS))
        return self.source.choice([True, False]) if sort < 0.5 else self.source.choice(FLAGS)

    def conditions(self, count, is_chain):
        """Conditions for some binders of one name: the attributes, and the formula that says when each is there."""
        if self.chance(0.06):  # these may be there at once
            formulas = [self.formula() for _ in range(count)]
            return [(condition(one), one) for one in formulas]
        found, before = [], None
        for index in range(count):
            own = None if index and index == count - 1 and self.chance(0.6) else self.formula()
            whole = both(before, own)
            word = "if" if not index else "else" if own is None else "elif"
            attributes = [word] if word == "else" else condition(own, word)
            found.append((attributes if is_chain else condition(whole), whole))
            before = both(before, negated(True if own is None else own))
        if is_chain and self.chance(0.03):
            found[0] = ([{"k": "if", "expr": {"k": "lit", "text": "1"}}], None)  # a chain with a fault is kept whole
        return found

    # ---- Binders.

    def target(self, module):
        path = self.source.choice([module, *self.paths] if self.chance(0.3) else self.paths)
        names = self.bound[path] if self.chance(0.93) else NAMES
        return path, self.source.choice(names)

    def path_from(self, module, path):
        """How a module writes the path of another one; in a package the own modules have no path."""
        if path == module and self.chance(0.5):
            return "self"
        if module in PACKAGE_MODULES:
            inside = module.split("::")[0]
            if path.split("::")[0] == inside:
                return "::".join(["package", *path.split("::")[1:]])
            return "d" if inside == "p" else "package"
        return path

    def group(self, module, name):
        sort = self.source.random()
        if sort < 0.25:
            return Group(name, [(None, [], None)], False)
        if sort < 0.4:
            return Group(name, [(self.target(module), [], None)] * self.source.choice([1, 1, 2]), False)
        is_chain, count = self.chance(0.5), self.source.choice([2, 2, 3])
        found = [self.target(module) for _ in range(count)]
        if self.chance(0.25):
            found[-1] = found[0]
        if self.chance(0.35):
            is_chain, found[self.source.randrange(count)] = False, None
        return Group(name, [(target, *one) for target, one in zip(found, self.conditions(count, is_chain))], is_chain)

    def alias(self, module, name):
        """A name for modules, under conditions."""
        paths = [path for path in self.paths if "::" in path and path.split("::")[0] == "package" and path != module]
        found = [tuple(self.source.choice(paths).rsplit("::", 1)) for _ in range(2)]
        is_chain = self.chance(0.5)
        return Group(name, [(target, *one) for target, one in zip(found, self.conditions(2, is_chain))], is_chain)

    def imports_of(self, module, group):
        found = []
        for target, attributes, _ in group.branches:
            if target is not None:
                path, item = target
                content = {"item": item} if item == group.name else {"item": item, "as": group.name}
                published = ["publish"] if self.chance(0.75) else []
                written = path if group.name == "alias" else self.path_from(module, path)
                found.append(self.collected(node(path=written, content=content, attrs=published + attributes)))
        if group.is_chain and self.chance(0.04):
            found.append({"path": "package::a", "content": {"item": "f", "as": "spare"}, "attrs": ["else"]})
        return found

    def collected(self, statement):
        """The same import, perhaps with its item in a list."""
        pieces = statement["path"].split("::")
        if len(pieces) < 2 or not self.chance(0.2):
            return statement
        return {**statement, "path": pieces[0], "content": {"list": [{"path": pieces[1:], "content": statement["content"]}]}}

    # ---- Uses.

    def use(self, groups, module):
        """A name that is used, and the number of the branch that is meant, if its name has several."""
        group = self.source.choice(groups)
        if self.chance(0.08):
            return self.source.choice(NAMES), group, None
        alias = next((one for one in groups if one.name == "alias"), None)
        if alias is not None and self.chance(0.3):
            branch = self.source.randrange(len(alias.branches))
            path = "::".join(alias.branches[branch][0])
            return {"path": "alias", "name": self.source.choice(self.bound[path])}, alias, branch
        branch, sort = self.source.randrange(len(group.branches)), self.source.random()
        if group.name == "alias":
            return "free", group, None
        if sort < 0.6:
            return group.name, group, branch
        if sort < 0.85:
            path = "self" if self.chance(0.5) or module in PACKAGE_MODULES else module
            return {"path": path, "name": group.name}, group, branch
        path, name = self.target(module)
        return {"path": self.path_from(module, path), "name": name}, group, None

    def expression(self, use):
        sort = self.source.random()
        if sort < 0.2:
            return {"k": "call", "ty": use, "args": [{"k": "lit", "text": "1"}]}
        if sort < 0.3:
            return {"k": "index", "base": use, "index": {"k": "lit", "text": "0"}}
        if sort < 0.35:
            whole = {"name": use} if isinstance(use, str) else use
            return {**whole, "args": ["f"] if self.chance(0.3) else ["u32"]}
        return {"k": "paren", "expr": use} if sort < 0.45 else use

    def used(self, groups, module):
        """An expression, and a condition under which mostly one binder is there."""
        use, group, branch = self.use(groups, module)
        when = None if branch is None or self.chance(0.12) else group.branches[branch][2]
        if self.chance(0.2):
            when = both(when, self.formula(0))
        return self.expression(use), when

    def mirrored(self, group, make):
        """A node for each branch of a chain, under the same conditions."""
        return [make({"k": "assign", "op": "=", "lhs": "_", "rhs": self.expression(group.name)}, attributes)
                for _, attributes, _ in group.branches]

    # ---- Declarations.

    def statement(self, groups, module, depth):
        """Some statements in a row."""
        split = [one for one in groups if one.is_chain and one.name != "alias"]
        if split and self.chance(0.4):
            return self.mirrored(self.source.choice(split), lambda one, attributes: node(**one, attrs=attributes))
        expression, when = self.used(groups, module)
        sort = self.source.randrange(10 if depth else 3)
        if sort == 0:
            return [node(k="let", name=self.source.choice([*NAMES, "x"]) if self.chance(0.2) else "x", init=expression, attrs=condition(when))]
        if sort == 1:
            return [node(k="return", expr=expression, attrs=condition(when))]
        if sort == 2:
            return [{"k": "void"}, node(k="assign", op="=", lhs="_", rhs=expression, attrs=condition(when))]
        return [self.compound(groups, module, depth, expression, when, sort)]

    def compound(self, groups, module, depth, expression, when, sort):
        """A statement with others in it; the use stands in it, and the condition on it or on what is in it."""
        inner, attributes = node(k="assign", op="=", lhs="_", rhs=expression, attrs=condition(when)), []
        if self.chance(0.4):
            del_attrs = {key: value for key, value in inner.items() if key != "attrs"}
            inner, attributes = del_attrs, condition(when)
        stmts = [inner] + (self.statement(groups, module, depth - 1) if self.chance(0.5) else [])
        body, whole = {"stmts": stmts}, node(attrs=attributes)
        if sort == 3:
            return {"k": "block", **whole, **body}
        if sort == 4:
            return {"k": "if", **whole, "cond": True, "body": body, "elifs": [{"cond": False, "body": {"stmts": [inner]}}], "else": {"body": {}}}
        if sort == 5:
            clauses = [node(cases=["u32"], attrs=condition(when), body={"stmts": [{"k": "assign", "op": "=", "lhs": "_", "rhs": expression}]}),
                       {"cases": [{"k": "default"}], "body": body}]
            return {"k": "switch", **whole, "expr": True, "clauses": clauses}
        if sort == 6:
            continuing = node(attrs=condition(when), body={"stmts": [{"k": "assign", "op": "=", "lhs": "_", "rhs": expression}]})
            return {"k": "loop", **whole, "body": body, "continuing": continuing}
        if sort == 7:
            last = node(attrs=condition(when), expr=expression)
            return {"k": "loop", **whole, "body": body, "continuing": {"body": {}, "break_if": last}}
        if sort == 8:
            return {"k": "for", **whole, "init": {"k": "let", "name": "x", "init": "x"}, "cond": "x", "update": {"k": "inc", "expr": "x"}, "body": body}
        return {"k": "while", **whole, "cond": "x", "body": body}

    def declarations(self, name, attributes, groups, module):
        """A declaration of a name, or two."""
        sort = self.source.random()
        expression, when = self.used(groups, module)
        if sort < 0.35:
            return [node(k="const", name=name, init={"k": "lit", "text": "1"}, attrs=attributes)]
        if sort < 0.5 and not attributes:
            return [node(k="const", name=name, init=expression, attrs=condition(when))]
        if sort < 0.6:
            return [node(k="struct", name=name, members=[node(name="x", ty="u32"), node(name="y", ty=self.type_of(expression), attrs=condition(when))], attrs=attributes)]
        stmts = [one for _ in range(self.source.randrange(1, 3)) for one in self.statement(groups, module, 2)]
        params = [node(name=self.source.choice(["q", "q", self.source.choice(NAMES)]), ty=self.type_of(expression), attrs=condition(when))] if self.chance(0.3) else []
        return [node(k="fn", name=name, params=params, body={"stmts": stmts}, attrs=attributes)]

    def type_of(self, expression):
        """The first name of an expression, as a type."""
        if isinstance(expression, str) or "k" not in expression:
            return expression
        return expression["ty"] if expression["k"] == "call" else self.type_of(expression.get("expr", expression.get("base")))

    def unit(self, module):
        groups = [self.group(module, name) for name in self.bound[module]]
        if module.startswith("package") and self.chance(0.5):
            groups.append(self.alias(module, "alias"))
        imports, declarations = [], []
        for group in self.source.sample(groups, len(groups)):
            imports += self.imports_of(module, group)
            for target, attributes, _ in group.branches:
                if target is None:
                    declarations += self.declarations(group.name, attributes, groups, module)
        if module == ROOT:
            declarations += self.declarations("r", [], groups, module)
            split = [one for one in groups if one.is_chain and one.name != "alias"]
            if split and self.chance(0.3):
                declarations += self.mirrored(split[0], lambda one, attributes: node(k="const", name="r", init=one["rhs"], attrs=attributes))
        if self.chance(0.1):
            expression, when = self.used(groups, module)
            declarations.append(node(k="assert", expr=expression, attrs=condition(when)))
        return node(imports=imports, declarations=declarations)

    def add_flags(self, unit):
        """So many flags more that there are some 16."""
        formula = "F0"
        for number in range(1, self.source.randrange(12, 16)):
            formula = {"k": "binary", "op": "&&", "left": formula, "right": f"F{number}"}
        unit.setdefault("declarations", []).append(node(k="const", name="spare", init={"k": "lit", "text": "1"}, attrs=condition(formula)))

    def bundle(self):
        modules = [{"path": path, "unit": self.unit(path)} for path in OWN_MODULES]
        if self.chance(0.03):
            self.add_flags(self.source.choice(modules)["unit"])
        keep = ["r"] + ([self.source.choice(self.bound[ROOT])] if self.chance(0.15) else [])
        found = {"root": ROOT, "keep": keep, "modules": modules, "mangle_root": True, "eager": self.chance(0.15)}
        if self.with_packages:
            inner = [{"name": "q", "unit": self.unit("p::q")}]
            found["packages"] = [{"name": "p", "unit": self.unit("p"), "modules": inner, "dependencies": [{"name": "d", "unit": self.unit("p/d")}]}]
        return found
