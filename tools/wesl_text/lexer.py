"""The tokens of a WESL text, with its template lists told from comparisons."""

import re

from .source import SyntaxFault

BLANK = "[ \t\n\v\f\r\x85\u200e\u200f\u2028\u2029]"
LINE_END = "[\n\v\f\r\x85\u2028\u2029]"
BLANKS = re.compile(f"{BLANK}+")
LINE_COMMENT = re.compile("//.*?(?=" + LINE_END + r"|\Z)", re.S)
NUMBER = re.compile(r"""
    (?: 0[xX] (?: [0-9a-fA-F]*\.[0-9a-fA-F]+ (?:[pP][+-]?[0-9]+[fh]?)?
                | [0-9a-fA-F]+\.[0-9a-fA-F]* (?:[pP][+-]?[0-9]+[fh]?)?
                | [0-9a-fA-F]+ [pP][+-]?[0-9]+[fh]?
                | [0-9a-fA-F]+ [iu]? )
      | [0-9]*\.[0-9]+ (?:[eE][+-]?[0-9]+)? [fh]?
      | [0-9]+\.[0-9]* (?:[eE][+-]?[0-9]+)? [fh]?
      | [0-9]+ [eE][+-]?[0-9]+ [fh]?
      | (?: 0 | [1-9][0-9]* ) [iufh]? )""", re.X)
SYMBOLS = ["<<=", ">>=", "::", "->", "++", "--", "&&", "||", "==", "!=", "<=", ">=", "<<", ">>", "+=", "-=", "*=", "/=", "%=", "&=",
           "|=", "^=", *"()[]{}<>@,.;:=+-*/%&|^!~"]

KEYWORDS = set("""alias break case const const_assert continue continuing default diagnostic discard else enable false fn for if
    let loop override requires return struct switch true var while""".split())
RESERVED = set("""NULL Self abstract active alignas alignof as asm asm_fragment async attribute auto await become cast catch class
    co_await co_return co_yield coherent column_major common compile compile_fragment concept const_cast consteval constexpr
    constinit crate debugger decltype delete demote demote_to_helper do dynamic_cast enum explicit export extends extern external
    fallthrough filter final finally friend from fxgroup get goto groupshared highp impl implements import inline instanceof
    interface layout lowp macro macro_rules match mediump meta mod module move mut mutable namespace new nil noexcept noinline
    nointerpolation non_coherent noncoherent noperspective null nullptr of operator package packoffset partial pass patch
    pixelfragment precise precision premerge priv protected pub public readonly ref regardless register reinterpret_cast require
    resource restrict self set shared sizeof smooth snorm static static_assert static_cast std subroutine super target template
    this thread_local throw trait try type typedef typeid typename typeof union unless unorm unsafe unsized use using varying
    virtual volatile wgsl where with writeonly yield""".split())


def starts_name(char):
    return char == "_" or char.isidentifier()


def goes_on_name(char):
    return ("a" + char).isidentifier()


class Token:
    """A token: `kind` is `name`, `number`, `symbol` or `end`. The brackets of a template list are the symbols `<T` and `T>`."""

    __slots__ = ("kind", "text", "start", "end")

    def __init__(self, kind, text, start, end):
        self.kind, self.text, self.start, self.end = kind, text, start, end

    def __repr__(self):
        return "the end of the file" if self.kind == "end" else f"`{self.text.replace('T', '') if self.kind == 'symbol' else self.text}`"


class Scanner:
    """The parts of a text from left to right; `next` leaves `start` and `at` round the part that it found."""

    def __init__(self, source):
        self.source, self.text = source, source.text
        self.at = 0

    def fault(self, index, message):
        return SyntaxFault(self.source, index, message)

    def skip_block_comment(self):
        begin, depth, at = self.at, 0, self.at
        while True:
            opened, closed = self.text.find("/*", at), self.text.find("*/", at)
            if closed < 0:
                raise self.fault(begin, "this comment is not ended; expected `*/`")
            if 0 <= opened < closed:
                depth, at = depth + 1, opened + 2
            else:
                depth, at = depth - 1, closed + 2
                if depth == 0:
                    self.at = at
                    return

    def skip_blank(self):
        """Goes past blanks and comments."""
        while True:
            blank = BLANKS.match(self.text, self.at) or LINE_COMMENT.match(self.text, self.at)
            if blank:
                self.at = blank.end()
            elif self.text.startswith("/*", self.at):
                self.skip_block_comment()
            else:
                return

    def skip_name(self):
        begin = self.at
        self.at += 1
        while self.at < len(self.text) and goes_on_name(self.text[self.at]):
            self.at += 1
        return self.text[begin:self.at]

    def skip_number(self):
        """Goes past a number, if one begins here."""
        char = self.text[self.at]
        if not (char.isdecimal() and char.isascii() or char == "." and self.text[self.at + 1:self.at + 2] in tuple("0123456789")):
            return None
        found = NUMBER.match(self.text, self.at)
        self.at = found.end() if found else self.at + 1
        return found.group() if found else char


def template_brackets(source):
    """The places of the `<` that open template lists and of the `>` that close them, by the algorithm of WGSL's specification.

    Of a name with a path, as in `a::b<c>`, the last part counts; `::` doesn't end a list as a single `:` does.
    """
    scan = Scanner(source)
    text, opened, closed, pending, depth = scan.text, set(), set(), [], 0
    while True:
        scan.skip_blank()
        if scan.at >= len(text):
            return opened, closed
        char, two = text[scan.at], text[scan.at:scan.at + 2]
        if starts_name(char):
            scan.skip_name()
            scan.skip_blank()
            if text.startswith("<", scan.at):
                place = scan.at
                scan.at += 1
                if text[scan.at:scan.at + 1] in ("<", "="):
                    scan.at += 1
                else:
                    pending.append((place, depth))
        elif scan.skip_number() is not None:
            continue
        elif char == ">":
            if pending and pending[-1][1] == depth:
                opened.add(pending.pop()[0])
                closed.add(scan.at)
                scan.at += 1
            else:
                scan.at += 2 if two == ">=" else 1
        elif char in "([":
            depth += 1
            scan.at += 1
        elif char in ")]":
            while pending and pending[-1][1] >= depth:
                pending.pop()
            depth = max(0, depth - 1)
            scan.at += 1
        elif two in ("==", "!=", "<=", "::"):
            scan.at += 2
        elif two in ("&&", "||"):
            while pending and pending[-1][1] >= depth:
                pending.pop()
            scan.at += 2
        elif char in "=;{:":
            depth, pending = 0, []
            scan.at += 1
        else:
            scan.at += 1


def tokens(source):
    """The tokens of the text, the last one its end."""
    opened, closed = template_brackets(source)
    scan, found = Scanner(source), []
    while True:
        scan.skip_blank()
        begin = scan.at
        if begin >= len(scan.text):
            found.append(Token("end", "", begin, begin))
            return found
        if starts_name(scan.text[begin]):
            found.append(Token("name", scan.skip_name(), begin, scan.at))
            continue
        number = scan.skip_number()
        if number is not None:
            if NUMBER.fullmatch(number) is None or scan.at < len(scan.text) and goes_on_name(scan.text[scan.at]):
                raise scan.fault(begin, "this is no number of WGSL; expected digits, `.`, an exponent and one of the suffixes `i`, `u`, `f`, `h`")
            found.append(Token("number", number, begin, scan.at))
            continue
        if begin in opened or begin in closed:
            scan.at += 1
            found.append(Token("symbol", "<T" if begin in opened else "T>", begin, scan.at))
            continue
        # A `>` that closes a template list is a token of its own, behind `-` too.
        symbol = next((one for one in SYMBOLS if scan.text.startswith(one, begin) and begin + len(one) - 1 not in closed), None)
        if symbol is None and scan.text[begin] == "\ufeff":
            raise scan.fault(begin, "a byte order mark, which WGSL does not take; save the file without")
        if symbol is None:
            raise scan.fault(begin, f"the character `{scan.text[begin]}` (U+{ord(scan.text[begin]):04X}) begins no token")
        scan.at += len(symbol)
        found.append(Token("symbol", symbol, begin, scan.at))
