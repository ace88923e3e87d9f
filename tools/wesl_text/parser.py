"""From WESL text to trees of form 2: WGSL's grammar with WESL's imports, paths and conditions."""

from .lexer import KEYWORDS, RESERVED, tokens
from .source import SyntaxFault

PLAIN_ATTRIBUTES = ["const", "invariant", "must_use", "vertex", "fragment", "compute", "publish", "else"]
ATTRIBUTES_OF_ONE = ["align", "binding", "blend_src", "group", "id", "location", "size", "if", "elif"]
SPACES = ["function", "private", "workgroup", "uniform", "storage", "handle"]
ACCESSES = ["read", "write", "read_write"]
ASSIGNMENTS = ["=", "+=", "-=", "*=", "/=", "%=", "&=", "|=", "^=", "<<=", ">>="]
UNARY = ["!", "-", "~", "&", "*"]
MULTIPLYING, ADDING, SHIFTING = ["*", "/", "%"], ["+", "-"], ["<<", ">>"]
COMPARING = ["==", "!=", "<", "<=", ">", ">="]
BITWISE, LOGICAL = ["&", "|", "^"], ["&&", "||"]
BINARY = MULTIPLYING + ADDING + SHIFTING + COMPARING + BITWISE + LOGICAL
DIRECTIVES = ["enable", "requires", "diagnostic"]
MOST_NESTING = 127


def node(attrs=None, **members):
    """The members that are there, with the attributes if there are any."""
    if attrs:
        members["attrs"] = attrs
    return {key: value for key, value in members.items() if value is not None}


class Parser:
    """Reads the tokens of one source, each construct by the method that has its name."""

    def __init__(self, source):
        self.source, self.tokens = source, tokens(source)
        self.at, self.depth = 0, 0

    # Tokens.

    def peek(self, ahead=0):
        return self.tokens[min(self.at + ahead, len(self.tokens) - 1)]

    def sees(self, *texts, ahead=0):
        token = self.peek(ahead)
        return token.kind in ("symbol", "name") and token.text in texts

    def take(self):
        token = self.peek()
        self.at += 1
        return token

    def takes(self, text):
        if self.sees(text):
            self.at += 1
            return True
        return False

    def fault(self, message, token=None):
        return SyntaxFault(self.source, (token or self.peek()).start, message)

    def expected(self, what):
        return self.fault(f"expected {what}, found {self.peek()!r}")

    def expect(self, text, why=""):
        if not self.takes(text):
            raise self.expected(f"`{text.replace('T', '')}`{why}")

    def span(self, begin):
        """The bytes from the token number `begin` to the last one that was taken."""
        return [self.source.offset(self.tokens[begin].start), self.source.offset(self.tokens[self.at - 1].end)]

    def nested(self, read):
        """What `read` reads, one level deeper."""
        self.depth += 1
        if self.depth > MOST_NESTING:
            raise self.fault(f"this is nested more than {MOST_NESTING} levels deep, which no tree may be")
        found = read()
        self.depth -= 1
        return found

    def listed(self, end, read):
        """Elements with commas between them, and perhaps one behind them, up to the token `end`."""
        found = []
        while not self.sees(end):
            found.append(read())
            if not self.takes(","):
                break
        self.expect(end, " or `,`" if found else "")
        return found

    # Names.

    def name(self, what):
        """A name that is declared or used."""
        token = self.peek()
        if token.kind != "name":
            raise self.expected(what)
        if token.text in KEYWORDS:
            raise self.fault(f"expected {what}, found the keyword `{token.text}`")
        if token.text in RESERVED:
            raise self.fault(f"expected {what}, found the reserved word `{token.text}`")
        if token.text == "_":
            raise self.fault(f"expected {what}, found `_`, which names nothing")
        if token.text.startswith("__"):
            raise self.fault(f"expected {what}, found `{token.text}`; a name does not begin with two underscores")
        return self.take().text

    def word(self, what):
        """A word that may be spelled as a keyword is."""
        if self.peek().kind != "name":
            raise self.expected(what)
        return self.take().text

    def piece(self, pieces, what):
        """One more piece of a path: `package` and `self` at its beginning, `super` behind others, else a name."""
        text = self.peek().text
        is_origin = text in ("package", "self") and not pieces or text == "super" and all(one == "super" for one in pieces)
        if self.peek().kind == "name" and is_origin:
            if not self.sees("::", ahead=1):
                raise self.fault(f"expected `::` and a name behind `{text}`")
            return self.take().text
        return self.name(what)

    # Units.

    def unit(self):
        imports, directives, declarations = [], [], []
        while self.peek().kind != "end":
            begin, attrs = self.at, self.attributes()
            if self.sees("import"):
                if directives or declarations:
                    raise self.fault("an import behind a directive or a declaration; imports come first")
                imports.append(self.import_statement(begin, attrs))
            elif self.sees(*DIRECTIVES):
                if declarations:
                    raise self.fault(f"`{self.peek().text}` behind a declaration; directives come before them")
                directives.append(self.directive(begin, attrs))
            else:
                declarations.append(self.declaration(begin, attrs))
        return node(form=2, imports=imports or None, directives=directives or None, declarations=declarations or None)

    def import_statement(self, begin, attrs):
        self.take()
        pieces, content = self.path_and_content(self.import_piece)
        self.expect(";")
        return node(attrs, path="::".join(pieces) or None, content=content, span=self.span(begin))

    def path_and_content(self, read):
        """The pieces of a path, each with `::` behind it, and what is imported there: a collection or an item."""
        pieces = []
        while not self.takes("{"):
            pieces.append(read(pieces))
            if not self.takes("::"):
                if self.sees("{"):
                    raise self.expected("`::` before a collection")
                return pieces[:-1], node(item=pieces[-1], **({"as": self.name("the new name")} if self.takes("as") else {}))
        return pieces, {"list": self.listed("}", self.import_entry)}

    def import_piece(self, pieces):
        """One more piece of a statement's path; the name of a package may have parts with `/` between them, and is no item then."""
        found = self.piece(pieces, "a path, an item or `{`")
        while not pieces and self.takes("/"):
            found += "/" + self.name("the name of a package")
        if "/" in found and not self.sees("::"):
            raise self.expected("`::` behind the name of a package")
        return found

    def import_entry(self):
        pieces, content = self.path_and_content(lambda _: self.name("an item, a path or `{`"))
        return node(path=pieces or None, content=content)

    def directive(self, begin, attrs):
        word = self.take().text
        if word == "diagnostic":
            severity, rule = self.diagnostic_control()
            self.expect(";")
            return node(attrs, k=word, severity=severity, rule=rule, span=self.span(begin))
        names = [self.word("the name of an extension")]
        while self.takes(",") and not self.sees(";"):
            names.append(self.word("the name of an extension"))
        self.expect(";", " or `,`")
        return node(attrs, k=word, names=names, span=self.span(begin))

    def diagnostic_control(self):
        self.expect("(")
        severity = self.word("a severity")
        self.expect(",")
        rule = self.word("the name of a rule")
        if self.takes("."):
            rule += "." + self.word("the name of a rule")
        self.takes(",")
        self.expect(")")
        return severity, rule

    # Attributes.

    def attributes(self):
        found = []
        while self.sees("@"):
            found.append(self.attribute())
        return found

    def attribute(self):
        begin = self.at
        self.take()
        word = self.word("the name of an attribute")
        if word in PLAIN_ATTRIBUTES:
            members = {}
        elif word in ATTRIBUTES_OF_ONE:
            members = {"expr": self.arguments(word, 1, 1)[0]}
        elif word == "workgroup_size":
            members = dict(zip("xyz", self.arguments(word, 1, 3)))
        elif word == "builtin":
            members = {"name": self.words_of(word, 1)[0]}
        elif word == "interpolate":
            members = {"names": self.words_of(word, 2)}
        elif word == "diagnostic":
            members = dict(zip(["severity", "rule"], self.diagnostic_control()))
        else:
            args = None
            if self.takes("("):
                args = self.listed(")", self.expression)
            members = node(name=word, args=args)
            word = "custom"
        return {"k": word, **members, "span": self.span(begin)}

    def arguments(self, word, least, most):
        self.expect("(", f" behind `@{word}`")
        found = self.listed(")", self.expression)
        if not least <= len(found) <= most:
            wanted = "one operand" if most == 1 else f"{least} to {most} operands"
            raise self.fault(f"`@{word}` has {wanted}, not {len(found)}", self.tokens[self.at - 1])
        return found

    def words_of(self, word, most):
        self.expect("(", f" behind `@{word}`")
        found = self.listed(")", lambda: self.word("a word"))
        if not 1 <= len(found) <= most:
            raise self.fault(f"`@{word}` has {'one word' if most == 1 else 'one or two words'}, not {len(found)}", self.tokens[self.at - 1])
        return found

    # Declarations.

    def declaration(self, begin, attrs):
        if self.sees(";"):
            return self.void(begin, attrs)
        if self.sees("const", "override", "var"):
            found = self.variable(begin, attrs)
            self.expect(";")
            return {**found, "span": self.span(begin)}
        if self.sees("const_assert"):
            return self.const_assert(begin, attrs)
        if self.sees("alias"):
            return self.alias(begin, attrs)
        if self.sees("struct"):
            return self.struct(begin, attrs)
        if self.sees("fn"):
            return self.function(begin, attrs)
        if self.sees("let"):
            raise self.fault("`let` outside of a function; expected `const`, `override` or `var`")
        raise self.expected("an import, a directive or a declaration" if begin == 0 else "a declaration")

    def void(self, begin, attrs):
        if attrs:
            raise self.fault("attributes before `;`, which has none")
        self.take()
        return {"k": "void", "span": self.span(begin)}

    def variable(self, begin, attrs):
        """`const`, `override`, `let` or `var` without the `;` behind it."""
        word = self.take().text
        space = access = None
        if word == "var" and self.takes("<T"):
            space, access = self.space_and_access()
        name = self.name("a name")
        ty = self.type() if self.takes(":") else None
        init = None
        if self.sees("=") or word in ("const", "let"):
            self.expect("=", f"; a `{word}` has a value")
            init = self.expression()
        return node(attrs, k=word, space=space, access=access, name=name, ty=ty, init=init, span=self.span(begin))

    def space_and_access(self):
        token = self.peek()
        space, access = self.word("an address space"), None
        if space not in SPACES:
            raise self.fault(f"a tree cannot say the address space `{space}`; expected one of {', '.join(SPACES)}", token)
        if self.takes(",") and not self.sees("T>"):
            token = self.peek()
            access = self.word("an access mode")
            if access not in ACCESSES:
                raise self.fault(f"a tree cannot say the access mode `{access}`; expected one of {', '.join(ACCESSES)}", token)
            self.takes(",")
        self.expect("T>")
        return space, access

    def const_assert(self, begin, attrs):
        self.take()
        condition = self.expression()
        self.expect(";")
        return node(attrs, k="assert", expr=condition, span=self.span(begin))

    def alias(self, begin, attrs):
        self.take()
        name = self.name("a name")
        self.expect("=")
        ty = self.type()
        self.expect(";")
        return node(attrs, k="alias", name=name, ty=ty, span=self.span(begin))

    def struct(self, begin, attrs):
        self.take()
        name = self.name("a name")
        self.expect("{")
        members = self.listed("}", self.member)
        return node(attrs, k="struct", name=name, members=members or None, span=self.span(begin))

    def member(self):
        begin, attrs = self.at, self.attributes()
        name = self.name("a member")
        self.expect(":")
        ty = self.type()
        return node(attrs, name=name, ty=ty, span=self.span(begin))

    def function(self, begin, attrs):
        self.take()
        name = self.name("a name")
        self.expect("(")
        params = self.listed(")", self.parameter)
        ret_attrs = ret = None
        if self.takes("->"):
            ret_attrs, ret = self.attributes() or None, self.type()
        body = self.body()
        return node(attrs, k="fn", name=name, params=params or None, ret_attrs=ret_attrs, ret=ret, body=body, span=self.span(begin))

    def parameter(self):
        attrs = self.attributes()
        name = self.name("a parameter")
        self.expect(":")
        return node(attrs, name=name, ty=self.type())

    # Statements.

    def body(self):
        """Statements in braces, with the attributes before them."""
        attrs = self.attributes()
        return node(attrs, stmts=self.nested(self.statements) or None)

    def statements(self):
        self.expect("{")
        found = []
        while not self.sees("}"):
            found.append(self.statement())
        self.take()
        return found

    def statement(self):
        begin, attrs = self.at, self.attributes()
        readers = {"{": self.block, "if": self.if_statement, "switch": self.switch, "loop": self.loop, "for": self.for_statement,
                   "while": self.while_statement, "const_assert": self.const_assert, ";": self.void, "return": self.return_statement,
                   "break": self.jump, "continue": self.jump, "discard": self.jump}
        token = self.peek()
        if token.kind in ("name", "symbol") and token.text in readers:
            return readers[token.text](begin, attrs)
        if self.sees("continuing"):
            raise self.fault("`continuing` here; it is the last of a `loop`")
        found = self.simple_statement(begin, attrs)
        self.expect(";")
        return {**found, "span": self.span(begin)}

    def block(self, begin, attrs):
        return node(attrs, k="block", stmts=self.nested(self.statements) or None, span=self.span(begin))

    def jump(self, begin, attrs):
        if self.sees("break") and self.sees("if", ahead=1):
            raise self.fault("`break if` here; it is the last of a `continuing`")
        word = self.take().text
        self.expect(";")
        return node(attrs, k=word, span=self.span(begin))

    def return_statement(self, begin, attrs):
        self.take()
        value = None if self.sees(";") else self.expression()
        self.expect(";")
        return node(attrs, k="return", expr=value, span=self.span(begin))

    def if_statement(self, begin, attrs):
        self.take()
        found = node(attrs, k="if", cond=self.expression(), body=self.body())
        elifs = []
        while True:
            mark, inner = self.at, self.attributes()
            if not self.takes("else"):
                self.at = mark
                break
            if not self.takes("if"):
                found["else"] = node(inner, body=self.body())
                break
            condition = self.expression()
            elifs.append(node(inner, cond=condition, body=self.body()))
        return {**found, **node(elifs=elifs or None, span=self.span(begin))}

    def switch(self, begin, attrs):
        self.take()
        value = self.expression()
        body_attrs = self.attributes()
        self.expect("{")
        clauses = []
        while not self.sees("}"):
            clauses.append(self.nested(self.clause))
        self.take()
        return node(attrs, k="switch", expr=value, body_attrs=body_attrs or None, clauses=clauses or None, span=self.span(begin))

    def clause(self):
        attrs = self.attributes()
        if self.takes("default"):
            cases = [{"k": "default"}]
        elif self.takes("case"):
            cases = [self.case()]
            while self.takes(",") and not self.sees(":", "{", "@"):
                cases.append(self.case())
        else:
            raise self.expected("`case`, `default` or `}`")
        self.takes(":")
        return node(attrs, cases=cases, body=self.body())

    def case(self):
        return {"k": "default"} if self.takes("default") else self.expression()

    def loop(self, begin, attrs):
        self.take()
        body_attrs = self.attributes()
        statements, continuing = self.nested(self.loop_body)
        return node(attrs, k="loop", body=node(body_attrs, stmts=statements or None), continuing=continuing, span=self.span(begin))

    def last_behind(self, read, word, what):
        """Statements in braces, and what `read` reads of the last element, which begins with `word`."""
        self.expect("{")
        found, last = [], None
        while not self.sees("}"):
            mark, attrs = self.at, self.attributes()
            if self.sees(*word[:1]) and (len(word) == 1 or self.sees(word[1], ahead=1)):
                if last is not None:
                    raise self.fault(f"a second {what}; a tree holds one")
                last = read(attrs)
            elif last is not None:
                raise self.fault(f"expected `}}`, found {self.peek()!r}; the {what} comes last")
            else:
                self.at = mark
                found.append(self.statement())
        self.take()
        return found, last

    def loop_body(self):
        return self.last_behind(self.continuing, ["continuing"], "`continuing`")

    def continuing(self, attrs):
        self.take()
        body_attrs = self.attributes()
        statements, break_if = self.nested(lambda: self.last_behind(self.break_if, ["break", "if"], "`break if`"))
        return node(attrs, body=node(body_attrs, stmts=statements or None), break_if=break_if)

    def break_if(self, attrs):
        self.take()
        self.take()
        condition = self.expression()
        self.expect(";")
        return node(attrs, expr=condition)

    def for_statement(self, begin, attrs):
        self.take()
        self.expect("(")
        init = None if self.sees(";") else self.part_of_for()
        self.expect(";")
        condition = None if self.sees(";") else self.expression()
        self.expect(";")
        update = None if self.sees(")") else self.part_of_for()
        self.expect(")")
        return node(attrs, k="for", init=init, cond=condition, update=update, body=self.body(), span=self.span(begin))

    def part_of_for(self):
        begin = self.at
        return self.simple_statement(begin, self.attributes())

    def while_statement(self, begin, attrs):
        self.take()
        condition = self.expression()
        return node(attrs, k="while", cond=condition, body=self.body(), span=self.span(begin))

    def simple_statement(self, begin, attrs):
        """A declaration, an assignment, `++`, `--` or a call, without the `;` behind it."""
        if self.sees("const", "let", "var"):
            return self.variable(begin, attrs)
        token = self.peek()
        if token.kind == "name" and token.text == "_":
            target = self.at
            self.take()
            left = {"name": "_", "span": self.span(target)}
            if not self.sees("="):
                raise self.expected("`=` behind `_`")
        elif token.kind in ("number", "end") or token.text in KEYWORDS or self.sees("}"):
            raise self.expected("a statement")
        else:
            left = self.unary()
        if self.sees(*ASSIGNMENTS):
            self.check_target(left, token)
            operator = self.take().text
            right = self.expression()
            return node(attrs, k="assign", op=operator, lhs=left, rhs=right, span=self.span(begin))
        if self.sees("++", "--"):
            self.check_target(left, token)
            word = "inc" if self.take().text == "++" else "dec"
            return node(attrs, k=word, expr=left, span=self.span(begin))
        if left.get("k") == "call":
            call = {key: value for key, value in left.items() if key not in ("k", "span")}
            return node(attrs, k="call", call=call, span=self.span(begin))
        raise self.expected("an assignment, `++`, `--` or `(`")

    def check_target(self, left, token):
        """What is assigned to is a name, or leads to a place by `*`, `.` and `[..]`."""
        while left.get("k") in ("field", "index", "paren", "unary"):
            if left["k"] == "unary" and left["op"] not in "*&":
                break
            left = left["base"] if "base" in left else left["expr"]
        if "k" in left:
            raise self.fault("nothing can be assigned to this expression", token)

    # Types and expressions.

    def named(self, what):
        """The path, the name and the template arguments of a type or of what is spelled like one."""
        pieces = [self.piece([], what)]
        while self.takes("::"):
            pieces.append(self.piece(pieces, "a name behind `::`"))
        args = self.nested(self.template_arguments) if self.sees("<T") else None
        name = pieces.pop()
        return node(name=name, path="::".join(pieces) or None, args=args)

    def template_arguments(self):
        self.take()
        found = self.listed("T>", self.expression)
        if not found:
            raise self.fault("expected a template argument, found `>`", self.tokens[self.at - 1])
        return found

    def type(self):
        found = self.named("a type")
        return found["name"] if len(found) == 1 else found

    def expression(self):
        return self.nested(self.binary)

    def binary(self):
        begin = self.at
        left = self.unary()
        if self.sees(*BITWISE):
            left = self.chain(begin, left, [self.peek().text], self.unary)
        else:
            left = self.comparison(begin, left)
            if self.sees(*LOGICAL):
                left = self.chain(begin, left, [self.peek().text], self.compared)
        if self.sees(*BINARY):
            raise self.fault(f"expected parentheses: WGSL does not take `{self.peek().text}` behind the operation before it without")
        return left

    def operation(self, begin, operator, left, right):
        return {"k": "binary", "op": operator, "left": left, "right": right, "span": self.span(begin)}

    def chain(self, begin, left, operators, operand):
        """Operations one after the other; each is a level of the tree."""
        levels = 0
        while self.sees(*operators):
            levels += 1
            if levels > MOST_NESTING:
                raise self.fault(f"more than {MOST_NESTING} operations in one chain, which no tree may hold; take constants for parts of it")
            operator = self.take().text
            left = self.operation(begin, operator, left, operand())
        return left

    def compared(self):
        begin = self.at
        return self.comparison(begin, self.unary())

    def comparison(self, begin, left):
        left = self.shift(begin, left)
        if self.sees(*COMPARING):
            operator, inner = self.take().text, self.at
            left = self.operation(begin, operator, left, self.shift(inner, self.unary()))
        return left

    def shift(self, begin, left):
        if self.sees(*SHIFTING):
            operator = self.take().text
            return self.operation(begin, operator, left, self.unary())
        return self.chain(begin, self.chain(begin, left, MULTIPLYING, self.unary), ADDING, self.product)

    def product(self):
        begin = self.at
        return self.chain(begin, self.unary(), MULTIPLYING, self.unary)

    def unary(self):
        begin = self.at
        if self.sees(*UNARY):
            operator = self.take().text
            operand = self.nested(self.unary)
            return {"k": "unary", "op": operator, "expr": operand, "span": self.span(begin)}
        found = self.primary()
        while self.sees(".", "["):
            if self.take().text == ".":
                found = {"k": "field", "base": found, "name": self.name("a member"), "span": self.span(begin)}
            else:
                index = self.expression()
                self.expect("]")
                found = {"k": "index", "base": found, "index": index, "span": self.span(begin)}
        return found

    def primary(self):
        begin, token = self.at, self.peek()
        if self.takes("("):
            inner = self.expression()
            self.expect(")")
            return {"k": "paren", "expr": inner, "span": self.span(begin)}
        if token.kind == "number":
            return {"k": "lit", "text": self.take().text, "span": self.span(begin)}
        if self.sees("true", "false"):
            return {"k": self.take().text, "span": self.span(begin)}
        if token.kind != "name":
            raise self.expected("an expression")
        found = self.named("an expression")
        if not self.takes("("):
            return {**found, "span": self.span(begin)}
        args = self.listed(")", self.expression)
        ty = found["name"] if len(found) == 1 else found
        return node(k="call", ty=ty, args=args or None, span=self.span(begin))


def parse(source):
    """The tree of a module, in form 2; raises `SyntaxFault`."""
    return Parser(source).unit()


def without_spans(tree):
    """The same tree in form 1."""
    if isinstance(tree, list):
        return [without_spans(one) for one in tree]
    if not isinstance(tree, dict):
        return tree
    word = tree.get("k")
    found = {key: without_spans(value) for key, value in tree.items() if key not in ("span", "form")}
    if word in ("true", "false"):
        return word == "true"
    if word in PLAIN_ATTRIBUTES and list(found) == ["k"] or list(found) == ["name"]:
        return found.get("k") or found["name"]
    return found
