"""Texts of shaders and the places in them."""

MOST_SHOWN = 300  # characters of a line that is shown
LINE_BREAKS = "\n\v\f\r\x85\u2028\u2029"


class SyntaxFault(Exception):
    """Something that the text, or the tree form, doesn't allow, with the index of the character where it stands."""

    def __init__(self, source, index, message):
        super().__init__(message)
        self.source, self.index, self.message = source, index, message

    def __str__(self):
        return f"{self.source.at(self.index)}: error: {self.message}"

    def told(self):
        """The fault, and below it the line in which it stands, with a mark."""
        offset = self.source.offset(self.index)
        return "\n".join(filter(None, [str(self), self.source.shown(offset, offset)]))


class Source:
    """The text of one file. Trees count its bytes in UTF-8, people its lines and columns, which begin with 1."""

    def __init__(self, name, text):
        self.name, self.text = name, text
        self.bytes_before = None
        self.line_starts = [0]
        for index, char in enumerate(text):
            if char in LINE_BREAKS and not (char == "\r" and text[index + 1:index + 2] == "\n"):
                self.line_starts.append(index + 1)
        if not text.isascii():
            self.bytes_before = [0]
            for char in text:
                self.bytes_before.append(self.bytes_before[-1] + len(char.encode("utf-8")))

    def offset(self, index):
        """The bytes before a character."""
        return index if self.bytes_before is None else self.bytes_before[index]

    def index(self, offset):
        """The character in which a byte stands."""
        if self.bytes_before is None:
            return min(offset, len(self.text))
        low, high = 0, len(self.text)
        while low < high:
            middle = (low + high + 1) // 2
            low, high = (middle, high) if self.bytes_before[middle] <= offset else (low, middle - 1)
        return low

    def line_and_column(self, index):
        low, high = 0, len(self.line_starts) - 1
        while low < high:
            middle = (low + high + 1) // 2
            low, high = (middle, high) if self.line_starts[middle] <= index else (low, middle - 1)
        return low + 1, index - self.line_starts[low] + 1

    def at(self, index):
        """The place of a character as compilers write it: `file:line:column`."""
        line, column = self.line_and_column(index)
        return f"{self.name}:{line}:{column}"

    def at_offset(self, offset):
        return self.at(self.index(offset))

    def shown(self, start, end):
        """The line of the bytes from `start` to `end`, with what they cover underlined."""
        first, last = self.index(start), self.index(end)
        line, column = self.line_and_column(first)
        begin = self.line_starts[line - 1]
        text = next(iter(self.text[begin:].splitlines()), "")
        if len(text) > MOST_SHOWN:
            return ""
        covered = max(1, min(last, begin + len(text)) - first)
        pad = "".join("\t" if char == "\t" else " " for char in text[:column - 1])
        return f"    {text}\n    {pad}{'^' * covered}"


def read_source(path, name=None):
    """The source of a file; a file that is no UTF-8 is a fault at its first wrong byte."""
    data = path.read_bytes()
    name = name or str(path)
    try:
        return Source(name, data.decode("utf-8"))
    except UnicodeDecodeError as fault:
        source = Source(name, data[:fault.start].decode("utf-8"))
        raise SyntaxFault(source, len(source.text), "this byte is not UTF-8") from None
