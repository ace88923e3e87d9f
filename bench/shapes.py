"""The shapes of so many parts by which `bench/hostile --growth` looks how work and memory grow.

`LINKED` has the families of bundles for `wesl-link`, `EXPLAINED` those for `wesl-explain`. Of each shape there is its name, how many parts it
has at first, a call that makes the bundle of so many parts, whether the bundle is refused, and how many bytes of memory it may
take for each of its bytes.
"""
import json
from typing import Callable, NamedTuple


# How many bytes of memory a shape may take for each of its bytes, and one whose conditions name sixteen flags that are kept.
BYTES_AT_MOST = 250
SETS_AT_MOST = 40


# How many times as fast as its bytes the work of a shape may grow, and that of one which prints a long name for each of its
# parts: the line is then a square of the input, in these sizes a small part of the work.
GROWTH_AT_MOST = 1.15
PRINTED_AT_MOST = 1.25


class Shape(NamedTuple):
    name: str
    count: int
    make: Callable[[int], bytes]
    is_refused: bool = False
    memory: int = BYTES_AT_MOST
    growth: float = GROWTH_AT_MOST


def text(value):
    return json.dumps(value, separators=(",", ":"), ensure_ascii=False).encode()


def module(path, **unit):
    return {"path": path, "unit": unit}


def bundle(*modules, keep=("k",), **more):
    return text({"root": "package::main", "keep": list(keep), "modules": list(modules), **more})


def const(name, init=True, **more):
    return {"k": "const", "name": name, "init": init, **more}


def function(name, *statements, **more):
    return {"k": "fn", "name": name, "body": {"stmts": list(statements)}, **more}


def alias(name, target, **more):
    return {"k": "alias", "name": name, "ty": target, **more}


def call(name, *arguments):
    return {"k": "call", "ty": name, **({"args": list(arguments)} if arguments else {})}


def number(what, count):
    """So many names or paths that begin with the same."""
    return [f"{what}{at}" for at in range(count)]


def at(path, name):
    """A name under a path."""
    return {"path": path, "name": name}


def under(first, count):
    """A path with so many parts behind the first."""
    return "::".join([first, *number("p", count)])


def listed(names, path=None):
    """The content of an import: a list of items, behind a path of their own where there is one."""
    return {"list": [{**({"path": path} if path else {}), "content": {"item": name}} for name in names]}


def imported(path, content, *attributes):
    return {"path": path, "content": content, **({"attrs": list(attributes)} if attributes else {})}


def one(path, item, name, *attributes):
    """An import of one item under another name."""
    return imported(path, {"item": item, "as": name}, *attributes)


def published(path, item, **more):
    return imported(path, {"item": item, **more}, "publish")


def items(path, names):
    """A module of constants."""
    return module(path, declarations=[const(name) for name in names])


def uses(asked):
    return [const(f"k{place}", name) for place, name in enumerate(asked)]


def main_of_uses(asked, others=(), imports=(), declarations=(), **more):
    """A bundle whose root has a constant for each of these, and keeps it."""
    main = module("package::main", imports=list(imports), declarations=[*declarations, *uses(asked)])
    return bundle(main, *others, keep=number("k", len(asked)), max_modules=1_000_000, **more)


# Conditions.


def is_not(expr):
    return {"k": "unary", "op": "!", "expr": expr}


def both(left, right):
    return {"k": "binary", "op": "&&", "left": left, "right": right}


def when(expr):
    return {"k": "if", "expr": expr}


def way(place, count=12):
    """A condition for which one choice of the flags F0, F1 .. stands."""
    flags = number("F", count)
    made = None
    for bit, flag in enumerate(flags):
        part = flag if place >> bit & 1 else is_not(flag)
        made = both(made, part) if made else part
    return made


def on_way(place, count=12):
    return when(way(place, count))


EITHER = [when("F0"), "else"]
NEVER = when(both("F0", is_not("F0")))
IS_KEPT = {"features": {"default": "keep"}}


# What is looked up.


def in_one_module(count, asked):
    imports = [published("package::m", f"f{place + 1}", **{"as": f"f{place}"}) for place in range(count)]
    return main_of_uses(asked, [module("package::m", imports=imports, declarations=[const(f"f{count}")])])


def over_modules(count, asked):
    chain = [module(f"package::m{place}", imports=[published(f"package::m{place + 1}", "f")]) for place in range(count)]
    return main_of_uses(asked, [*chain, items(f"package::m{count}", ["f"])])


def look_ups():
    names = lambda count: [at("package::m", name) for name in number("f", count)]
    paths = lambda count: [at(path, "f") for path in number("package::m", count)]
    yield Shape("re-exports in one module", 150, lambda count: in_one_module(count, names(count)))
    yield Shape("re-exports in one module, the last asked first", 150, lambda count: in_one_module(count, names(count)[::-1]))
    yield Shape("re-exports over modules", 150, lambda count: over_modules(count, paths(count)))
    yield Shape("re-exports over modules, the last asked first", 150, lambda count: over_modules(count, paths(count)[::-1]))
    of_m = lambda what, count: imported("package::m", listed(number(what, count)))
    yield Shape("imports and references to them", 500, lambda count: main_of_uses(
        number("f", count), [items("package::m", number("f", count))], [of_m("f", count)]
    ))
    yield Shape("imports and references to free names", 500, lambda count: main_of_uses(
        number("x", count), [items("package::m", number("f", count))], [of_m("f", count)]
    ))
    yield Shape("imports and references under a path", 500, lambda count: main_of_uses(
        [at("q", name) for name in number("f", count)],
        [items("package::q", number("f", count))],
        [of_m("i", count), imported("package", {"item": "q"})],
    ))
    yield Shape("imports of modules and references under them", 300, lambda count: main_of_uses(
        [at(path, "f") for path in number("q", count)],
        [items(path, ["f"]) for path in number("package::q", count)],
        [imported("package", listed(number("q", count)))],
    ))
    yield Shape("equal imports and references to them", 300, lambda count: main_of_uses(
        ["f"] * count, [items("package::m", ["f"])], [imported("package::m", {"item": "f"})] * count
    ))
    yield Shape("equal imports of a module and references under them", 300, lambda count: main_of_uses(
        [at("q", "f")] * count, [items("package::q", ["f"])], [imported("package", {"item": "q"})] * count
    ))
    yield Shape("paths without imports", 500, lambda count: main_of_uses(names(count), [items("package::m", number("f", count))]))
    yield Shape("references to one name under a path", 500, lambda count: main_of_uses(
        [at("package::m", "f")] * count, [items("package::m", ["f"])]
    ))
    yield Shape("a chain of modules", 300, lambda count: bundle(
        module("package::main", declarations=[const("k", at("package::m0", "k"))]),
        *(module(f"package::m{place}", declarations=[const("k", at(f"package::m{place + 1}", "k"))]) for place in range(count)),
        items(f"package::m{count}", ["k"]),
        max_modules=1_000_000,
    ))
    yield Shape("a chain of constants", 500, lambda count: bundle(
        module("package::main", declarations=[const(f"c{place}", f"c{place + 1}") for place in range(count)]), keep=["c0"]
    ))
    yield Shape("modules that nothing loads", 500, lambda count: bundle(
        module("package::main", declarations=[const("k")]), *(items(path, ["f"]) for path in number("package::m", count))
    ))
    yield Shape("imports where the link is eager", 300, lambda count: main_of_uses(
        number("f", count), [items("package::m", number("f", count))], [of_m("f", count)], eager=True
    ))
    yield Shape("a ring of modules, each asked", 150, lambda count: main_of_uses(
        paths(count), [module(f"package::m{place}", imports=[published(f"package::m{(place + 1) % count}", "f")]) for place in range(count)]
    ), True)


def kept_names():
    yield Shape("kept names", 500, lambda count: main_of_uses([True] * count))
    yield Shape("a kept name again and again", 1000, lambda count: bundle(items("package::main", ["k"]), keep=["k"] * count))
    yield Shape("a kept name again and again, which as many declarations bear", 500, lambda count: bundle(
        module("package::main", declarations=[const("k", f"x{place}") for place in range(count)]), keep=["k"] * count
    ))
    yield Shape("kept names that are imports", 500, lambda count: bundle(
        module("package::main", imports=[imported("package::m", listed(number("f", count)), "publish")]),
        items("package::m", number("f", count)),
        keep=number("f", count),
    ))


def packages():
    unit = {"declarations": [const("f")]}
    yield Shape("modules of one package", 500, lambda count: main_of_uses(
        [at(path, "f") for path in number("p::m", count)],
        packages=[{"name": "p", "unit": {}, "modules": [{"name": name, "unit": unit} for name in number("m", count)]}],
    ))
    yield Shape("packages", 500, lambda count: main_of_uses(
        [at(path, "f") for path in number("p", count)], packages=[{"name": name, "unit": unit} for name in number("p", count)]
    ))
    yield Shape("dependencies of a package with a long name", 500, lambda count: main_of_uses(
        [at("p" * 8 * count, "k")],
        packages=[
            {
                "name": "p" * 8 * count,
                "unit": {
                    "imports": [imported(name, {"item": "f", "as": f"f_{name}"}) for name in number("d", count)],
                    "declarations": [const("k")],
                },
                "dependencies": [{"name": name, "unit": unit} for name in number("d", count)],
            }
        ],
    ))
    yield Shape("dependencies of a package", 500, lambda count: main_of_uses(
        [at("p", name) for name in number("k", count)],
        packages=[
            {
                "name": "p",
                "unit": {"declarations": [const(f"k{place}", at(f"d{place}", "f")) for place in range(count)]},
                "dependencies": [{"name": name, "unit": unit} for name in number("d", count)],
            }
        ],
    ))


# Paths of many parts.


def in_one_another(names):
    """Lists in one another, each but the outermost behind a part of a path."""
    many = len(names) // 30 + 1
    parts = [names[first : first + many] for first in range(0, len(names), many)]
    content = listed(parts[-1])
    for part in parts[-2::-1]:
        content = {"list": [*listed(part)["list"], {"path": ["q"], "content": content}]}
    return content


def deep_root(count, beside=(), **unit):
    """A bundle whose root is a module with a path of so many parts."""
    path = under("package", count)
    return bundle(module(path, **unit), *beside, root=path)


def long_paths():
    inside = lambda path, content: [imported(path, content)]
    for what, asked in (("", "f0"), (" that nothing uses", "x")):
        yield Shape(f"a long path and a list of items{what}", 1000, lambda count, asked=asked: main_of_uses(
            [asked], [items(under("package", count), ["f0"])], inside(under("package", count), listed(number("f", count)))
        ))
    yield Shape("a long path by super and a list of items", 1000, lambda count: deep_root(
        count, imports=inside(under("super", count), listed(number("f", count))), declarations=[const("k")]
    ))
    yield Shape("a long path in a package and a list of items", 1000, lambda count: main_of_uses(
        [{"path": "p", "name": "k"}],
        packages=[{"name": "p", "unit": {"imports": inside(under("package", count), listed(number("f", count))), "declarations": [const("k")]}}],
    ))
    yield Shape("a long path and lists in one another", 1000, lambda count: main_of_uses(
        ["x"], imports=inside(under("package", count), in_one_another(number("f", count)))
    ))
    yield Shape("a long path and a list of items behind equal paths", 150, lambda count: main_of_uses(
        ["x"], imports=inside(under("package", count), listed(number("f", count), ["q"]))
    ))
    yield Shape("a long path and a list of items behind paths of their own", 150, lambda count: main_of_uses(
        ["x"],
        imports=inside(
            under("package", count), {"list": [{"path": [f"q{place}"], "content": {"item": f"f{place}"}} for place in range(count)]}
        ),
    ))
    yield Shape("imports of a module with a long path", 80, lambda count: main_of_uses(
        number("f", count),
        [items(under("package", count), number("f", count))],
        [imported(under("package", count), {"item": name}) for name in number("f", count)],
    ))
    beside = lambda count: [items(f"{under('package', count - 1)}::m", ["f"])]
    many = lambda path, count: [one(path, "f", name) for name in number("f", count)]
    for what, path in (("super", "super::m"), ("self", "self::m")):
        yield Shape(f"imports by {what} in a module with a long path", 150, lambda count, path=path: deep_root(
            count, beside(count), imports=many(path, count), declarations=[const("k", "f0" if path == "super::m" else True)]
        ))
        yield Shape(f"imports of many modules by {what} in a module with a long path", 150, lambda count, path=path: deep_root(
            count, imports=[one(f"{path}{place}", "f", f"f{place}") for place in range(count)], declarations=[const("k")]
        ))
    yield Shape("a list of items by super in a module with a long path, each used", 150, lambda count: deep_root(
        count,
        [items(f"{under('package', count - 1)}::m", ["f"])],
        imports=inside("super::m", {"list": [{"content": {"item": "f", "as": name}} for name in number("f", count)]}),
        declarations=[function("k", *({"k": "call", "call": {"ty": name}} for name in number("f", count)))],
    ))
    yield Shape("references by super in a module with a long path", 150, lambda count: deep_root(
        count, beside(count), declarations=[function("k", *({"k": "call", "call": {"ty": at("super::m", "f")}} for _ in range(count)))]
    ), growth=PRINTED_AT_MOST)
    yield Shape("references by package in a module with a long path", 150, lambda count: deep_root(
        count,
        [items("package::m", ["f"])],
        declarations=[function("k", *({"k": "call", "call": {"ty": at("package::m", "f")}} for _ in range(count)))],
    ))
    yield Shape("references to free names in a module with a long path", 150, lambda count: deep_root(
        count, declarations=[function("k", *({"k": "call", "call": {"ty": name}} for name in number("x", count)))]
    ))
    yield Shape("references under an import of a module with a long path", 150, lambda count: main_of_uses(
        [at("q", "f")] * count, [items(f"{under('package', count)}::q", ["f"])], inside(under("package", count), {"item": "q"})
    ), growth=PRINTED_AT_MOST)
    yield Shape("references under an import of a module with a long path, each to another module", 150, lambda count: main_of_uses(
        [True],
        declarations=[const(f"u{place}", at(f"q::r{place}", "f")) for place in range(count)],
        imports=inside(under("package", count), {"item": "q"}),
    ))
    yield Shape("paths of super up from a module with a long path", 60, lambda count: deep_root(
        count,
        [items("package::m", ["f"])],
        declarations=[
            function("k", *({"k": "call", "call": {"ty": at("::".join(["super"] * count) + "::m", "f")}} for _ in range(count)))
        ],
    ))
    yield Shape("re-exports by super from a module with a long path", 150, lambda count: bundle(
        module("package::main", declarations=[const("k", at(under("package", count), "f0"))]),
        module(under("package", count), imports=[imported("super::m", listed(number("f", count)), "publish")]),
        items(f"{under('package', count - 1)}::m", ["f0"]),
    ))


# Names with several targets.


def chosen(count):
    """Attributes of a chain of so many branches, each for another choice of twelve flags."""
    return [on_way(place) for place in range(count)]


def split_of(count, target, uses_of, beside=(), **more):
    """A bundle whose root imports a name in so many ways, and has these uses of it."""
    imports = [one("package::a", target(place), "f", attribute) for place, attribute in enumerate(chosen(count))]
    main = module("package::main", imports=[*imports, *beside], declarations=uses_of)
    return bundle(main, items("package::a", number("f", count)), **more)


def split_names():
    split = [one("package::m", f"g{place}", "g", attribute) for place, attribute in enumerate(EITHER)]
    of_m = lambda count: imported("package::m", listed(number("f", count)))
    yield Shape("equal imports and references to them, beside a split name", 300, lambda count: main_of_uses(
        ["f"] * count, [items("package::m", ["f", "g0", "g1"])], [imported("package::m", {"item": "f"})] * count + split
    ))
    yield Shape("imports and references to them, beside a split name", 500, lambda count: main_of_uses(
        number("f", count), [items("package::m", [*number("f", count), "g0", "g1"])], [of_m(count), *split]
    ))
    every = lambda count: [const("k", "f", attrs=[attribute]) for attribute in chosen(count)]
    yield Shape("binders of a split name, each of another target and with a use", 250, lambda count: split_of(
        count, lambda place: f"f{place}", every(count)
    ))
    yield Shape("binders of a split name of two targets, each with a use", 250, lambda count: split_of(
        count, lambda place: f"f{place % 2}", every(count)
    ))
    yield Shape("binders of a name of one target, each with a use", 250, lambda count: split_of(count, lambda place: "f0", every(count)))
    beside = [one("package::a", f"f{place}", "g", attribute) for place, attribute in enumerate(EITHER)]
    yield Shape("binders of a name of one target, each with a use, beside a split name", 250, lambda count: split_of(
        count, lambda place: "f0", every(count), beside
    ))
    yield Shape("binders of a name of one target and uses under no condition, beside a split name", 250, lambda count: split_of(
        count, lambda place: "f0", [const("k", "f")] * count, beside
    ))
    yield Shape("binders of a split name and uses under no condition", 250, lambda count: split_of(
        count, lambda place: f"f{place}", [const("k", "f")] * count
    ), True)
    yield Shape("uses of a name with two targets", 500, lambda count: bundle(
        module(
            "package::main",
            imports=[one("package::a", f"f{place}", "f", attribute) for place, attribute in enumerate(EITHER)],
            declarations=[const("k", "f", attrs=[EITHER[0]]) for _ in range(count)],
        ),
        items("package::a", ["f0", "f1"]),
    ))
    yield Shape("names that one condition splits", 250, lambda count: bundle(
        module(
            "package::main",
            imports=[imported(f"package::{path}", listed(number("f", count)), attribute) for path, attribute in zip("ab", EITHER)],
            declarations=[const("k", f"f{place}", attrs=[attribute]) for place in range(count) for attribute in EITHER],
        ),
        *(items(f"package::{path}", number("f", count)) for path in "ab"),
    ))
    far = lambda place: when(both("G", way(place)))
    seen = [one("package::a", f"f{place}", "f", when(both(is_not("G"), part))) for place, part in enumerate(["F0", is_not("F0")])]
    apart = lambda target, uses_of: lambda count: bundle(
        module(
            "package::main",
            imports=[*(one("package::a", target(place), "f", far(place)) for place in range(count)), *seen],
            declarations=[const("k", "f", attrs=[when(both(is_not("G"), "F0"))]) for _ in range(uses_of(count))],
        ),
        items("package::a", number("f", count + 2)),
    )
    yield Shape("binders of a split name that its uses do not see", 250, apart(lambda place: f"f{place}", lambda count: count))
    yield Shape("binders of a split name of one target that its uses do not see", 250, apart(lambda place: "f1", lambda count: count))
    yield Shape("binders of a split name that its one use does not see", 250, apart(lambda place: f"f{place}", lambda count: 1))
    yield Shape("imports of a split name of their own module", 250, lambda count: bundle(
        module(
            "package::main",
            imports=[
                *(one("package::a", f"f{place % 2}", "g", on_way(place)) for place in range(count)),
                *(one("package::main", "g", f"h{place}", on_way(place)) for place in range(count)),
            ],
            declarations=[const("k", f"h{place}", attrs=[on_way(place)]) for place in range(count)],
        ),
        items("package::a", ["f0", "f1"]),
    ))
    yield from split_seen()
    yield from split_own()
    yield from split_from_outside()


def split_seen():
    """Uses that see many binders of their name, where a binder with another target is seen by none of them."""
    seen = lambda place: when(both("G", way(place)))
    imports = lambda count, path, item: [
        *(one(path, item, "f", seen(place)) for place in range(count)), one("package::b", item, "f", when(is_not("G")))
    ]
    apart = lambda imports_of, used: lambda count: bundle(
        module(
            "package::main",
            imports=imports_of(count),
            declarations=[const("k", used, attrs=[when("G")]) for _ in range(count)],
        ),
        items("package::a", ["f"]), items("package::b", ["f"]), items("package::f", ["x"]),
    )
    yield Shape("binders of a split name that its uses see", 250, apart(lambda count: imports(count, "package::a", "f"), "f"))
    yield Shape("binders of a split name that paths begin with", 250, apart(
        lambda count: imports(count, "package", "f"), at("f", "x")
    ))


def split_own():
    """Imports of a name of their own module that has several targets."""
    through = lambda name, target, imports_of_g: lambda count: bundle(
        module(
            "package::main",
            imports=[
                *imports_of_g(count),
                one("package::a", "f0", "h", NEVER),
                *(one("package::main", target(place), name(place), on_way(place)) for place in range(count)),
            ],
            declarations=[const("k", name(place), attrs=[on_way(place)]) for place in range(count)],
        ),
        items("package::a", number("f", count)),
    )
    same = lambda name: lambda place: name
    of_two = lambda count: [one("package::a", f"f{place % 2}", "g", on_way(place)) for place in range(count)]
    of_many = lambda count: [one("package::a", f"f{place}", "g", on_way(place)) for place in range(count)]
    onward = lambda count: [
        one("package::a", "f0", "g", NEVER),
        *(one("package::main", "e", "g", on_way(place)) for place in range(count)),
        *(one("package::a", f"f{place}", "e", attribute) for place, attribute in enumerate(EITHER)),
    ]
    yield Shape("imports of one name of a split name of their own module", 250, through(same("h"), same("g"), of_two))
    yield Shape("imports of one name, each with another target, of a split name of their own module", 250, through(same("h"), same("g"), of_many))
    yield Shape("imports that a split name of their own module leads on", 250, through(lambda place: f"h{place}", same("g"), onward))
    yield Shape("imports of one name that a split name of their own module leads on", 250, through(same("h"), same("g"), onward))
    unused = lambda conditions: lambda count: bundle(
        module(
            "package::main",
            imports=[*onward(count), *(one("package::main", "g", f"h{place}", *conditions(place)) for place in range(count))],
            declarations=[const("k")],
        ),
        items("package::a", number("f", count)),
    )
    yield Shape("imports that see all binders of a split name of their own module", 250, unused(lambda place: []))
    yield Shape("imports that see all binders but one of a split name of their own module", 250, unused(lambda place: [when(is_not(way(place)))]))


def split_from_outside():
    names = lambda count: [at("package::m", "f")] * count
    ways = lambda target, count: [one("package::a", target, "f", "publish", on_way(place)) for place in range(count)]
    beside = [one("package::a", f"g{place}", "g", attribute) for place, attribute in enumerate(EITHER)]
    given = lambda imports: [module("package::m", imports=imports), items("package::a", ["f0", "g0", "g1"])]
    yield Shape("references from outside to a name with binders of one target, beside a split name", 250, lambda count: main_of_uses(
        names(count), given([*ways("f0", count), *beside])
    ))
    dead = lambda count: [one("package::a", "g0", "f", "publish", NEVER) for place in range(count)]
    yield Shape("references from outside past binders that no choice keeps", 250, lambda count: main_of_uses(
        names(count), given([*dead(count), one("package::a", "f0", "f", "publish"), *beside])
    ))
    yield Shape("references from outside past binders of several targets that no choice keeps", 250, lambda count: main_of_uses(
        names(count),
        [
            module("package::m", imports=[
                *(one("package::a", f"g{place}", "f", "publish", NEVER) for place in range(count)),
                one("package::a", "f0", "f", "publish"),
                *beside,
            ]),
            items("package::a", ["f0", "g0", "g1"]),
        ],
    ))
    yield Shape("declarations of a name under conditions, and references to it", 250, lambda count: main_of_uses(
        names(count), [module("package::m", declarations=[const("f", f"x{place}", attrs=[on_way(place)]) for place in range(count)])]
    ))
    yield Shape("modules that split a name, each asked", 150, lambda count: main_of_uses(
        [at(path, "k") for path in number("package::m", count)],
        [
            module(path, imports=beside, declarations=[const("k", "g", attrs=[EITHER[0]])])
            for path in number("package::m", count)
        ] + [items("package::a", ["g0", "g1"])],
    ))


# Flags and conditions.


def conditions():
    yield Shape("flags that are answered, each in a condition", 500, lambda count: bundle(
        module("package::main", declarations=[const("k", attrs=[when(flag)]) for flag in number("X", count)]),
        features={"flags": {flag: "enable" for flag in number("X", count)}},
    ))
    yield Shape("flags that are kept, each in a condition", 500, lambda count: bundle(
        module("package::main", declarations=[const("k", attrs=[when(flag)]) for flag in number("X", count)]),
        features={"flags": {flag: "keep" for flag in number("X", count)}},
    ))
    branches = lambda count: [const("k", attrs=[{"k": "elif" if place else "if", "expr": f"X{place}"}]) for place in range(count)]
    for answer in ("keep", "enable", "disable"):
        yield Shape(f"branches of one chain, each flag answered {answer}", 500, lambda count, answer=answer: bundle(
            module("package::main", declarations=[*branches(count), const("z")]), keep=["z"], features={"default": answer}
        ))
    split = [one("package::a", f"f{place}", "f", attribute) for place, attribute in enumerate(EITHER)]
    kept = lambda declarations: bundle(
        module("package::main", imports=split, declarations=[const("k", way(0, 16)), *declarations]), items("package::a", ["f0", "f1"])
    )
    all_flags = number("F", 16)
    rest = [const("x", attrs=[on_way(0, 16)])]
    few = lambda place: both(all_flags[place % 16], both(all_flags[place // 16 % 16], is_not(all_flags[(place // 256 + 1) % 16])))
    uses_under = lambda conditions: [const("k", "f", attrs=[when(condition)]) for condition in conditions]
    calls_under = lambda name, conditions: [
        function("k", *({"k": "call", "call": {"ty": name}, "attrs": [when(condition)]} for condition in conditions))
    ]
    yield Shape("uses under conditions of three of sixteen flags", 250, lambda count: kept(
        rest + uses_under(both("F0", few(place)) for place in range(count))
    ), memory=SETS_AT_MOST)
    yield Shape("uses under one of sixteen flags", 250, lambda count: kept(rest + uses_under(["F0"] * count)), memory=SETS_AT_MOST)
    yield Shape("uses under conditions of sixteen flags", 60, lambda count: kept(
        rest + uses_under(way(2 * place + 1, 16) for place in range(count))
    ), memory=SETS_AT_MOST)
    yield Shape("statements under conditions of three of sixteen flags", 250, lambda count: kept(
        rest + calls_under("x", map(few, range(count)))
    ), memory=SETS_AT_MOST)
    yield Shape("statements with a use of a split name, under conditions of three of sixteen flags", 250, lambda count: kept(
        rest + calls_under("f", (both("F0", few(place)) for place in range(count)))
    ), memory=SETS_AT_MOST)
    chain = lambda count: [{"k": "elif" if place else "if", "expr": both("F0", few(place))} for place in range(count)]
    yield Shape("branches of one chain over sixteen flags", 250, lambda count: kept(
        rest + [const("y", attrs=[attribute]) for attribute in chain(count)]
    ), memory=SETS_AT_MOST)


# What is validated.


BUILTINS = {"names": ["f32"], "constructors": ["f32"]}


def calls(asked, declarations):
    """A bundle whose root has a constant for a call of each of these, and keeps it."""
    main = module("package::main", declarations=[*declarations, *uses(map(call, asked))])
    return bundle(main, keep=number("k", len(asked)), builtins=BUILTINS)


def taking(name, count, **more):
    """A function with so many parameters."""
    return function(name, params=[{"name": f"p{place}", "ty": "f32"} for place in range(count)], **more)


def root_of(count):
    """A number whose square is not below."""
    return next(root for root in range(count + 1) if root * root >= count)


def validated():
    chain = lambda count: [*(alias(f"a{place}", f"a{place + 1}") for place in range(count)), alias(f"a{count}", "f32")]
    yield Shape("chained aliases, each called", 500, lambda count: calls(number("a", count), chain(count)))
    yield Shape("chained aliases, the first called each time", 500, lambda count: calls(["a0"] * count, chain(count)))
    yield Shape("functions of one name under conditions, called", 250, lambda count: calls(
        ["f"] * count, [function("f", attrs=[on_way(place)]) for place in range(count)]
    ))
    yield Shape("aliases of one name under conditions, called", 250, lambda count: calls(
        ["a"] * count,
        [alias("a", f"g{place}", attrs=[on_way(place)]) for place in range(count)] + [function(f"g{place}") for place in range(count)],
    ))
    yield Shape("chained aliases, two of each name, called", 250, lambda count: calls(
        number("a", count),
        [
            alias(f"a{place}", "f32" if place == count - 1 else f"{to}{place + 1}", attrs=[on_way(to == "a")])
            for place in range(count)
            for to in "ab"
        ]
        + [alias(f"b{place}", "f32" if place == count - 1 else f"a{place + 1}") for place in range(count)],
    ))
    counts = lambda count: [taking("f", place, attrs=[on_way(place)]) for place in range(root_of(count))]
    yield Shape("calls of functions of many counts of parameters", 400, lambda count: bundle(
        module("package::main", declarations=[
            *(taking(f"g{place}", place) for place in range(root_of(count))),
            *(const(f"k{place}", call(f"g{place}", *[True] * place)) for place in range(root_of(count))),
        ]),
        keep=number("k", root_of(count)), builtins=BUILTINS,
    ))
    yield Shape("calls of one function of many counts of parameters", 400, lambda count: bundle(
        module("package::main", declarations=[*counts(count), *(const(f"k{place}", call("f")) for place in range(count))]),
        keep=number("k", count), builtins=BUILTINS,
    ))
    yield Shape("chained aliases of a function of many counts of parameters, each called", 400, lambda count: calls(
        number("a", count), [*counts(count), *(alias(f"a{place}", f"a{place + 1}") for place in range(count)), alias(f"a{count}", "f")]
    ))
    yield Shape("aliases of a function of many counts of parameters, each called", 400, lambda count: calls(
        number("a", count), [*counts(count), *(alias(f"a{place}", "f") for place in range(count))]
    ))
    yield Shape("a call of a function with as many arguments", 1000, lambda count: bundle(
        module("package::main", declarations=[taking("f", count), const("k", call("f", *[True] * count))]), builtins=BUILTINS
    ))
    members = lambda count: [{"name": f"m{place}", "ty": "f32"} for place in range(count)]
    yield Shape("structures, each called", 500, lambda count: calls(
        number("s", count), [{"k": "struct", "name": name, "members": members(2)} for name in number("s", count)]
    ))
    yield Shape("a call of a structure of as many members", 1000, lambda count: bundle(
        module("package::main", declarations=[{"k": "struct", "name": "s", "members": members(count)}, const("k", call("s", *[True] * count))]),
        builtins=BUILTINS,
    ))
    yield Shape("constants of one name under conditions, used", 250, lambda count: bundle(
        module("package::main", declarations=[*(const("c", attrs=[on_way(place)]) for place in range(count)), *uses(["c"] * count)]),
        keep=number("k", count), builtins=BUILTINS,
    ))
    yield from rings()
    for what in ("names", "functions", "constructors"):
        given = lambda count, what=what: {"names": number("b", count), **({what: number("b", count)} if what != "names" else {})}
        called = lambda name, what=what: name if what == "names" else call(name)
        yield Shape(f"built-in {what}", 500, lambda count, given=given, called=called: main_of_uses(
            [called(name) for name in number("b", count)], builtins=given(count)
        ))


def rings():
    ring = lambda kind, count: [kind(f"c{place}", f"c{(place + 1) % count}") for place in range(count)]
    checked = lambda declarations: bundle(module("package::main", declarations=declarations), keep=["c0"], builtins=BUILTINS)
    yield Shape("constants in a ring, validated", 500, lambda count: checked(ring(const, count)), True)
    yield Shape("aliases in a ring, validated", 500, lambda count: checked(ring(alias, count)), True)
    yield Shape("constants in a chain that ends in a ring, validated", 500, lambda count: checked(
        [*(const(f"c{place}", f"c{place + 1}") for place in range(count)), const(f"c{count}", f"c{count - 1}")]
    ), True)
    yield Shape("constants in a chain, the last of none, validated", 500, lambda count: checked(
        [const(f"c{place}", f"c{place + 1}") for place in range(count)]
    ), True)
    yield Shape("a constant of each of as many others, validated", 500, lambda count: bundle(
        module("package::main", declarations=[
            const("k", call("f32", *number("c", count))), *(const(name, call("f32", *number("d", 2))) for name in number("c", count)), *map(const, "xy"),
            *map(const, number("d", 2)),
        ]),
        builtins=BUILTINS,
    ))
    two = lambda kind, name, targets: [kind(name, target, attrs=[EITHER[place]]) for place, target in enumerate(targets)]
    yield Shape("chained constants, two of each name, validated", 250, lambda count: bundle(
        module("package::main", declarations=[
            declaration
            for place in range(count)
            for name in "ab"
            for declaration in two(const, f"{name}{place}", [f"a{place + 1}", f"b{place + 1}"] if place + 1 < count else [True, True])
        ]),
        keep=["a0"], builtins=BUILTINS,
    ))


def scopes():
    body = lambda statements: bundle(module("package::main", declarations=[function("k", *statements)]), builtins=BUILTINS)
    let = lambda name, init=True: {"k": "let", "name": name, "init": init}
    yield Shape("statements of one name", 500, lambda count: body([let("v"), *[let("v", "v")] * count]))
    yield Shape("statements, each of the name before", 500, lambda count: body(
        [let("v0"), *(let(f"v{place + 1}", f"v{place}") for place in range(count))]
    ))
    yield Shape("blocks, each with the name of a constant", 500, lambda count: bundle(
        module("package::main", declarations=[
            const("v"), function("k", *({"k": "block", "stmts": [let("v", "v")]} for _ in range(count)))
        ]),
        builtins=BUILTINS,
    ))
    yield Shape("functions with a parameter of the name of a constant", 500, lambda count: main_of_uses(
        [],
        declarations=[const("v"), *(function(name, let("w", "v"), params=[{"name": "v", "ty": "f32"}]) for name in number("g", count))],
        eager=True,
    ))
    yield Shape("directives", 500, lambda count: bundle(
        module("package::main", directives=[{"k": "enable", "names": [name]} for name in number("e", count)], declarations=[const("k")])
    ))
    yield Shape("equal directives of as many modules", 300, lambda count: main_of_uses(
        [at(path, "f") for path in number("package::m", count)],
        [module(path, directives=[{"k": "enable", "names": ["e"]}], declarations=[const("f")]) for path in number("package::m", count)],
    ))
    yield Shape("names that clash when none is mangled", 300, lambda count: main_of_uses(
        [at(path, "f") for path in number("package::m", count)],
        [items(path, ["f"]) for path in number("package::m", count)],
        mangler="none",
    ))


# Form 2.


def placed(node, place):
    return {**node, "span": [10 * place, 10 * place + 9]}


def with_spans():
    named = lambda name, place: placed({"name": name}, place)
    unit = lambda declarations, **more: module("package::main", form=2, declarations=declarations, **more)
    yield Shape("constants with spans", 500, lambda count: bundle(
        unit([placed(const(f"k{place}", named(f"x{place}", place)), place) for place in range(count)]), keep=number("k", count), form=2
    ))
    yield Shape("references with spans to imports", 500, lambda count: bundle(
        unit(
            [placed(const(f"k{place}", named(f"f{place}", place)), place) for place in range(count)],
            imports=[imported("package::m", listed(number("f", count)))],
        ),
        items("package::m", number("f", count)), keep=number("k", count), form=2,
    ))
    yield Shape("statements with spans", 500, lambda count: bundle(
        unit([function("k", *(placed({"k": "call", "call": {"ty": "f"}}, place) for place in range(count)))]),
        form=2,
    ))
    yield Shape("conditions with spans", 500, lambda count: bundle(
        unit([placed(const("k", attrs=[placed(when(named(f"X{place}", place)), place)]), place) for place in range(count)]),
        form=2, **IS_KEPT,
    ))
    yield Shape("branches of one chain with spans", 500, lambda count: bundle(
        unit([
            placed(const("k", attrs=[placed({"k": "elif" if place else "if", "expr": named(f"X{place}", place)}, place)]), place)
            for place in range(count)
        ]),
        form=2, **IS_KEPT,
    ))
    yield Shape("a fault behind declarations with spans", 500, lambda count: bundle(
        unit([placed(const(f"k{place}", named("x", place)), place) for place in range(count)] + [const("k", at("package::no", "f"))]), form=2
    ), True)
    yield Shape("an undefined name behind declarations with spans", 500, lambda count: bundle(
        unit([placed(const(f"k{place}", named("f32", place)), place) for place in range(count)] + [const("y", placed({"name": "no"}, 1))]),
        keep=[*number("k", count), "y"], form=2, builtins=BUILTINS,
    ), True)
    yield Shape("constants with spans in a ring", 500, lambda count: bundle(
        unit([placed(const(f"c{place}", named(f"c{(place + 1) % count}", place)), place) for place in range(count)]),
        keep=["c0"], form=2, builtins=BUILTINS,
    ), True)


# The families of shapes for `wesl-link`.
LINKED = {
    "look-ups": look_ups,
    "kept names": kept_names,
    "packages": packages,
    "long paths": long_paths,
    "split names": split_names,
    "conditions": conditions,
    "validation": validated,
    "scopes": scopes,
    "places": with_spans,
}


# What `wesl-explain` is asked.


def reasons():
    yield Shape("a chain of constants", 500, lambda count: bundle(
        module("package::main", declarations=[const(f"c{place}", f"c{place + 1}") for place in range(count)]), keep=["c0"]
    ))
    yield Shape("a chain of modules", 300, lambda count: bundle(
        module("package::main", declarations=[const("k", at("package::m0", "k"))]),
        *(module(f"package::m{place}", declarations=[const("k", at(f"package::m{place + 1}", "k"))]) for place in range(count)),
        items(f"package::m{count}", ["k"]),
        max_modules=1_000_000,
    ))
    yield Shape("const_asserts", 500, lambda count: bundle(
        module("package::main", declarations=[const("k"), *({"k": "assert", "expr": "k"} for _ in range(count))])
    ))
    yield Shape("declarations of one name", 500, lambda count: bundle(
        module("package::main", declarations=[const("k", f"x{place % 9}") for place in range(count)])
    ))
    yield Shape("declarations where the link is eager", 500, lambda count: main_of_uses([True] * count, eager=True))
    for words in ("re-exports over modules", "re-exports over modules, the last asked first"):
        order = -1 if "last" in words else 1
        yield Shape(words, 150, lambda count, order=order: over_modules(
            count, [at(path, "f") for path in number("package::m", count)][::order]
        ))


def unused_imports():
    of_m = lambda what, count: imported("package::m", listed(number(what, count)))
    yield Shape("unused imports", 500, lambda count: main_of_uses([True] * count, imports=[of_m("f", count)]))
    yield Shape("unused imports and references to free names", 300, lambda count: main_of_uses(number("x", count), imports=[of_m("f", count)]))
    yield Shape("unused imports and references under paths", 300, lambda count: main_of_uses(
        [at("package::q", name) for name in number("g", count)], [items("package::q", number("g", count))], [of_m("f", count)]
    ))
    yield Shape("unused imports and references to many modules", 200, lambda count: main_of_uses(
        [at(path, "g") for path in number("package::q", count)],
        [items(path, ["g"]) for path in number("package::q", count)],
        [of_m("f", count)],
    ))
    yield Shape("imports of modules and references under them", 200, lambda count: main_of_uses(
        [at(path, "f") for path in number("q", count)],
        [items(path, ["f"]) for path in number("package::q", count)],
        [imported("package", listed(number("q", count)))],
    ))
    yield Shape("imports that declarations which are not held use", 300, lambda count: bundle(
        module("package::main", imports=[of_m("f", count)], declarations=[const("k"), *(const(f"u{place}", f"f{place}") for place in range(count))])
    ))
    yield Shape("re-exports that are asked for, in one module", 150, lambda count: in_one_module(
        count, [at("package::m", name) for name in number("f", count)]
    ))
    yield Shape("binders of one name and references from outside", 250, lambda count: main_of_uses(
        [at("package::m", "f")] * count,
        [module("package::m", imports=[published("package::a", "f")] * count), items("package::a", ["f"])],
    ))
    yield Shape("unused imports of modules with long paths", 60, lambda count: main_of_uses(
        [at(under(f"package::q{place}", count), "g") for place in range(count)],
        [items(under(f"package::q{place}", count), ["g"]) for place in range(count)],
        [of_m("f", count)],
    ))


def free_and_clashing():
    yield Shape("free names near to declared ones", 300, lambda count: main_of_uses(number("kk", count)))
    yield Shape("free names far from declared ones", 300, lambda count: main_of_uses(number("something_else", count)))
    yield Shape("free names of one length with the declared ones", 300, lambda count: main_of_uses([f"{place:05}"[::-1] + "z" for place in range(count)]))
    yield Shape("free names and modules of declared ones", 150, lambda count: main_of_uses(
        number("x", count) + [at(path, "x") for path in number("package::m", count)],
        [items(path, ["x"]) for path in number("package::m", count)],
    ))
    yield Shape("names that clash when none is mangled", 300, lambda count: main_of_uses(
        [at(path, "f") for path in number("package::m", count)],
        [items(path, ["f"]) for path in number("package::m", count)],
        mangler="none",
    ))
    yield Shape("locals of the name of a constant of another module", 300, lambda count: main_of_uses(
        [at("package::m", "f"), *number("g", count)],
        [items("package::m", ["f"])],
        declarations=[
            function(name, {"k": "let", "name": "f", "init": True}, {"k": "let", "name": "h", "init": at("package::m", "f")})
            for name in number("g", count)
        ],
        mangler="none",
    ))
    yield Shape("words that a local captures which is declared again", 300, lambda count: bundle(
        module("package::main", declarations=[function(
            "k",
            *[{"k": "let", "name": "function", "init": True}] * count,
            *({"k": "var", "name": name, "space": "function", "init": True} for name in number("x", count)),
        )]),
    ))


def refused_names():
    missing = lambda names: [at("package::m", name) for name in names]
    yield Shape("missing names", 300, lambda count: main_of_uses(missing(number("f", count)), [items("package::m", ["x"])]), True)
    yield Shape("missing names near to declared ones", 300, lambda count: main_of_uses(
        missing(number("ff", count)), [items("package::m", number("f", count))]
    ), True)
    yield Shape("missing names far from declared ones", 300, lambda count: main_of_uses(
        missing(number("something_else", count)), [items("package::m", number("f", count))]
    ), True)
    yield Shape("missing names near to published ones", 300, lambda count: main_of_uses(
        missing(number("ff", count)), [module("package::m", imports=[imported("package::a", listed(number("f", count)), "publish")])]
    ), True)
    yield Shape("missing names that other modules declare", 150, lambda count: main_of_uses(
        [*missing(number("f", count)), *(at(f"package::n{place}", f"f{place}") for place in range(count))],
        [items("package::m", ["x"]), *(items(f"package::n{place}", [f"f{place}"]) for place in range(count))],
    ), True)
    yield Shape("a missing name that many ask for", 500, lambda count: main_of_uses(missing(["f"] * count), [items("package::m", ["x"])]), True)
    yield Shape("missing names that one declaration asks for", 300, lambda count: main_of_uses(
        [call("f32", *missing(number("f", count)))], [items("package::m", ["x"])]
    ), True)
    yield Shape("a missing name that one declaration asks for again and again", 500, lambda count: main_of_uses(
        [call("f32", *missing(["f"] * count))], [items("package::m", ["x"])]
    ), True)
    yield Shape("kept names that are missing", 300, lambda count: bundle(items("package::main", ["x"]), keep=number("k", count)), True)
    yield Shape("kept names that are missing, with a path of many modules listed", 300, lambda count: bundle(
        items("package::main", ["x"]), *(items(path, ["x"]) for path in number("package::m", count)), keep=number("k", count)
    ), True)
    many = lambda count: [imported("package::a", {"item": "f"})] * count
    yield Shape("a name that is not published, with as many binders, that many modules ask for", 150, lambda count: main_of_uses(
        [at(path, "k") for path in number("package::n", count)],
        [module(path, declarations=[const("k", at("package::m", "f"))]) for path in number("package::n", count)]
        + [module("package::m", imports=many(count))],
    ), True)
    yield Shape("names that are not published", 300, lambda count: main_of_uses(
        missing(number("f", count)), [module("package::m", imports=[imported("package::a", listed(number("f", count)))])]
    ), True)
    yield Shape("a name that is not published with as many binders", 300, lambda count: main_of_uses(
        missing(["f"]), [module("package::m", imports=[one("package::a", f"f{place}", "f", on_way(place)) for place in range(count)])]
    ), True)


def refused_ways():
    chain = lambda count, last: [
        *(module(f"package::m{place}", declarations=[const("k", at(f"package::m{place + 1}", "k"))]) for place in range(count)), last
    ]
    first = module("package::main", declarations=[const("k", at("package::m0", "k"))])
    yield Shape("a chain of modules to a missing name", 100, lambda count: bundle(
        first, *chain(count, items(f"package::m{count}", ["x"])), max_modules=1_000_000
    ), True)
    yield Shape("a chain of modules, each with a missing name", 100, lambda count: bundle(
        first,
        *(
            module(f"package::m{place}", declarations=[const("k", call("f32", at(f"package::m{place + 1}", "k"), at("package::m0", f"x{place}")))])
            for place in range(count)
        ),
        items(f"package::m{count}", ["k"]),
        max_modules=1_000_000,
    ), True)
    yield Shape("a chain of constants, each with a missing name", 200, lambda count: bundle(
        module("package::main", declarations=[
            const(f"c{place}", call("f32", f"c{place + 1}", at("package::m", f"x{place}"))) for place in range(count)
        ]),
        items("package::m", ["x"]), keep=["c0"],
    ), True)
    yield Shape("a chain of constants, the last with a missing name", 300, lambda count: bundle(
        module("package::main", declarations=[
            *(const(f"c{place}", f"c{place + 1}") for place in range(count)), const(f"c{count}", at("package::m", "x"))
        ]),
        items("package::m", ["y"]), keep=["c0"],
    ), True)
    yield Shape("re-exports over modules, the last missing, each asked", 100, lambda count: main_of_uses(
        [at(path, "f") for path in number("package::m", count)],
        [
            *(module(f"package::m{place}", imports=[published(f"package::m{place + 1}", "f")]) for place in range(count)),
            items(f"package::m{count}", ["x"]),
        ],
    ), True)
    yield Shape("re-exports in one module, the last missing, each asked", 100, lambda count: main_of_uses(
        [at("package::m", name) for name in number("f", count)],
        [module("package::m", imports=[published("package::m", f"f{place + 1}", **{"as": f"f{place}"}) for place in range(count)])],
    ), True)
    yield Shape("re-exports over modules, each asked, beside a missing name", 100, lambda count: main_of_uses(
        [at("package::main", "no"), *(at(path, "f") for path in number("package::m", count))],
        [
            *(module(f"package::m{place}", imports=[published(f"package::m{place + 1}", "f")]) for place in range(count)),
            items(f"package::m{count}", ["f"]),
        ],
    ), True)
    yield Shape("a ring of modules, each asked", 100, lambda count: main_of_uses(
        [at(path, "f") for path in number("package::m", count)],
        [module(f"package::m{place}", imports=[published(f"package::m{(place + 1) % count}", "f")]) for place in range(count)],
    ), True)
    yield Shape("a ring of modules, asked once", 100, lambda count: main_of_uses(
        [at("package::m0", "f")],
        [module(f"package::m{place}", imports=[published(f"package::m{(place + 1) % count}", "f")]) for place in range(count)],
    ), True)


def refused_modules():
    main = module("package::main", declarations=[const("k", at("package::no", "f"))])
    yield Shape("modules that are not there", 200, lambda count: main_of_uses([at(path, "f") for path in number("package::m", count)]), True)
    yield Shape("modules that are not there, near to others", 200, lambda count: main_of_uses(
        [at(path, "f") for path in number("package::mm", count)], [items(path, ["f"]) for path in number("package::m", count)]
    ), True)
    yield Shape("modules that are not there, far from others", 200, lambda count: main_of_uses(
        [at(path, "f") for path in number("package::something_else", count)], [items(path, ["f"]) for path in number("package::m", count)]
    ), True)
    yield Shape("a module that is not there, asked again and again", 500, lambda count: main_of_uses([at("package::m", "f")] * count), True)
    yield Shape("modules that are named as items", 200, lambda count: main_of_uses(
        [at("package", name) for name in number("m", count)],
        [items("package", ["x"]), *(items(path, ["f"]) for path in number("package::m", count))],
    ), True)
    yield Shape("more modules than may be loaded", 200, lambda count: bundle(
        module("package::main", declarations=uses([at(path, "f") for path in number("package::m", count)])),
        *(items(path, ["f"]) for path in number("package::m", count)), keep=number("k", count), max_modules=2,
    ), True)
    yield Shape("modules with a bad condition", 150, lambda count: main_of_uses(
        [at(path, "f") for path in number("package::m", count)],
        [module(path, declarations=[const("f", attrs=["else"])]) for path in number("package::m", count)],
        **IS_KEPT,
    ), True)
    yield Shape("a module with bad conditions", 300, lambda count: main_of_uses(
        [at("package::m", "f")],
        [module("package::m", declarations=[piece for _ in range(count) for piece in (const("f"), const("f", attrs=["else"]))])],
        **IS_KEPT,
    ), True)
    yield Shape("imports of modules that are not there, where the link is eager", 200, lambda count: bundle(
        module("package::main", imports=[one(path, "f", f"f_{place}") for place, path in enumerate(number("package::m", count))], declarations=[const("k")]),
        eager=True,
    ), True)
    yield Shape("a module that is not there beside as many that are not asked", 500, lambda count: bundle(
        main, *(items(path, ["f"]) for path in number("package::m", count))
    ), True)


def refused_binders():
    no = const("k", at("package::no", "f"))
    yield Shape("binders of a name that do not clash, beside a missing module", 300, lambda count: bundle(
        module("package::main", imports=[one("package::a", "f", "f")] * count, declarations=[no])
    ), True)
    yield Shape("binders of a name under conditions, beside a missing module", 250, lambda count: bundle(
        module("package::main", imports=[one("package::a", f"f{place}", "f", on_way(place)) for place in range(count)], declarations=[no])
    ), True)
    yield Shape("binders of a name that clash", 300, lambda count: bundle(
        module("package::main", imports=[one("package::a", f"f{place}", "f") for place in range(count)], declarations=[const("k")])
    ), True)
    yield Shape("names that clash", 300, lambda count: bundle(
        module(
            "package::main",
            imports=[imported(f"package::{path}", listed(number("f", count))) for path in "ab"], declarations=[const("k")],
        )
    ), True)
    yield Shape("imports and declarations of a name under conditions, beside a missing module", 200, lambda count: bundle(
        module(
            "package::main",
            imports=[one("package::main", "f", "f", on_way(place)) for place in range(count)],
            declarations=[no, *(const("f", attrs=[on_way(place)]) for place in range(count))],
        )
    ), True)
    yield Shape("imports of a name and declarations of it that they do not meet, beside a missing module", 200, lambda count: bundle(
        module(
            "package::main",
            imports=[one("package::a", "f", "f", on_way(2 * place)) for place in range(count)],
            declarations=[no, *(const("f", attrs=[on_way(2 * place + 1)]) for place in range(count))],
        )
    ), True)
    yield Shape("uses of a name with several targets", 250, lambda count: split_of(
        count, lambda place: f"f{place}", [const("k", "f")] * count
    ), True)
    yield Shape("a use of a name with several targets", 250, lambda count: split_of(count, lambda place: f"f{place}", [const("k", "f")]), True)
    yield Shape("names with two targets, used under no condition", 200, lambda count: bundle(
        module(
            "package::main",
            imports=[imported(f"package::{path}", listed(number("f", count)), attribute) for path, attribute in zip("ab", EITHER)],
            declarations=[const("k", f"f{place}") for place in range(count)],
        ),
        *(items(f"package::{path}", number("f", count)) for path in "ab"),
    ), True)
    yield Shape("names with two targets, used under no condition in one declaration", 200, lambda count: bundle(
        module(
            "package::main",
            imports=[imported(f"package::{path}", listed(number("f", count)), attribute) for path, attribute in zip("ab", EITHER)],
            declarations=[const("k", call("f32", *number("f", count)))],
        ),
        *(items(f"package::{path}", number("f", count)) for path in "ab"),
    ), True)


# Those for `wesl-explain`.
EXPLAINED = {
    "reasons": reasons,
    "imports that nothing uses": unused_imports,
    "free and clashing names": free_and_clashing,
    "missing names": refused_names,
    "refused chains": refused_ways,
    "refused modules": refused_modules,
    "binders in the way": refused_binders,
}
