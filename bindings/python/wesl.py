"""The linker of WESL modules, by the C library wesl: a bundle in, the linked unit or its text out, or a Fault raised.

The library is the one in the folder that WESL_LIB_DIR names, or the one that the system finds.
"""

import ctypes
import dataclasses
import json
import os

_NAME = "libwesl.so.0"
_library = ctypes.CDLL(os.path.join(os.environ.get("WESL_LIB_DIR", ""), _NAME))
_link, _link_texts = _library.wesl_link_bundle, _library.wesl_link_texts
for _call in (_link, _link_texts):
    _call.restype = ctypes.c_uint32
    _call.argtypes = [ctypes.c_char_p, ctypes.c_size_t, ctypes.c_char_p, ctypes.c_size_t, ctypes.POINTER(ctypes.c_size_t)]
_version = _library.wesl_version
_version.restype = ctypes.c_uint32
_version.argtypes = []
# The longest line of this process.
_longest = 0


@dataclasses.dataclass(frozen=True)
class Answer:
    """A linked unit, as a tree; whether its names read otherwise than meant; (module, item) of each mangled name."""

    unit: dict
    clash: bool
    map: dict


@dataclasses.dataclass(frozen=True)
class TextAnswer:
    """The text of a linked unit; whether its names read otherwise than meant; (module, item) of each mangled name."""

    text: str
    clash: bool
    map: dict


class Fault(Exception):
    """Why a bundle is refused: its kind and arguments, and the module and the span where they are known."""

    def __init__(self, kind, arguments, module=None, span=None):
        place = f"{module}: " if module else ""
        super().__init__(place + " ".join([kind, *map(repr, arguments)]))
        self.kind, self.arguments, self.module, self.span = kind, arguments, module, span


def library_version():
    """The version of the library: the three numbers of 0.1.0."""
    version = _version()
    return version // 10000, version // 100 % 100, version % 100


def link_line(bundle, call=_link):
    """Links the bundle of these bytes: whether it is answered, and the bytes of the line.

    Only a bundle whose line is longer than all before, and than 65,536 bytes more than the bundle has twice, is linked a second
    time.
    """
    global _longest
    room = max(65536 + 2 * len(bundle), _longest)
    needed = ctypes.c_size_t()
    while True:
        buffer = ctypes.create_string_buffer(room)
        status = call(bundle, len(bundle), buffer, room, ctypes.byref(needed))
        if needed.value <= room:
            return status == 0, buffer[: needed.value]
        room = _longest = needed.value


def link_texts_line(bundle):
    """The same of a bundle of texts."""
    return link_line(bundle, _link_texts)


def _told(line_of, bundle):
    """The object of a bundle's line, or a Fault raised, with the items of its map."""
    if not isinstance(bundle, (str, bytes)):
        bundle = json.dumps(bundle, ensure_ascii=False)
    is_answer, line = line_of(bundle.encode() if isinstance(bundle, str) else bundle)
    told = json.loads(line)
    if not is_answer:
        raise Fault(told["fault"], told["args"], told.get("module"), tuple(told["span"]) if "span" in told else None)
    return told, {name: tuple(item) for name, item in told["map"].items()}


def link(bundle):
    """Links a bundle: JSON text, its bytes, or the object that it says. Answers an Answer, or raises a Fault."""
    told, items = _told(link_line, bundle)
    return Answer(told["unit"], told["clash"], items)


def link_texts(bundle):
    """Links a bundle whose units are shader texts, given as to link. Answers a TextAnswer, or raises a Fault."""
    told, items = _told(link_texts_line, bundle)
    return TextAnswer(told["text"], told["clash"], items)
