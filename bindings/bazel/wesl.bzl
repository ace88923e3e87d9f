"""The shader linker as rules: `wesl_library`, `wesl_link`, and `wesl_program`, which says where the program is."""

WeslLibraryInfo = provider(
    doc = "A library of modules.",
    fields = {
        "import_name": "the name by which modules of others import it",
        "folder": "the folder of its modules, as actions see it",
        "packages": "the folders of what it uses: by `b` of the library b, by `b/c` of the library c that b uses",
        "files": "the files that a link of it may read, those of what it uses too: a depset",
    },
)

WeslUnitInfo = provider(
    doc = "A linked unit.",
    fields = {
        "unit": "its file of WGSL",
        "source_map": "the file of its source map, revision 3",
    },
)

WeslProgramInfo = provider(
    doc = "The program `wesl-text`.",
    fields = {"executable": "its file, with what it needs to run"},
)

_MODULES = {
    "srcs": attr.label_list(
        doc = "The modules, and a `wesl.toml` or `project.json` if the program is to read its packages and sets of flags.",
        allow_empty = False,
        allow_files = [".wesl", ".wgsl", ".toml", ".json"],
        mandatory = True,
    ),
    "folder": attr.string(
        doc = "The folder of the modules, from that of the BUILD file: `a/b.wesl` in it is `package::a::b`.",
    ),
    "deps": attr.label_list(
        doc = "The libraries that the modules import by name.",
        providers = [WeslLibraryInfo],
    ),
}

def _joined(*parts):
    return "/".join([part for part in parts if part])

def _folder(ctx):
    """The folder of the modules, as actions see it."""
    inside = _joined(ctx.label.workspace_root, ctx.label.package, ctx.attr.folder.strip("/"))
    folders = {_joined("" if file.is_source else file.root.path, inside): file for file in ctx.files.srcs}
    if len(folders) > 1:
        fail("%s: srcs has source files and outputs of actions, which do not lie in one folder" % ctx.label)
    folder = folders.keys()[0]
    for file in ctx.files.srcs:
        if folder and not file.path.startswith(folder + "/"):
            fail("%s: %s does not lie in %s, the folder of the modules" % (ctx.label, file.path, folder))
    return folder or "."

def _packages(ctx):
    """The folders of the libraries that the modules use, by the program's names of packages."""
    packages = {}
    for target in ctx.attr.deps:
        library = target[WeslLibraryInfo]
        name = library.import_name
        if name in packages:
            fail("%s: two libraries of deps have the name `%s`" % (ctx.label, name))
        packages[name] = library.folder
        for inner, folder in library.packages.items():
            packages[name + "/" + inner] = folder
    return packages

def _files(ctx):
    """The files that a link of the modules may read."""
    return depset(ctx.files.srcs, transitive = [target[WeslLibraryInfo].files for target in ctx.attr.deps])

def _wesl_library_impl(ctx):
    name = ctx.attr.import_name or ctx.label.name
    if "/" in name or "=" in name:
        fail("%s: `%s` is no name of a library: say its import_name" % (ctx.label, name))
    files = _files(ctx)
    library = WeslLibraryInfo(import_name = name, folder = _folder(ctx), packages = _packages(ctx), files = files)
    return [DefaultInfo(files = files), library]

wesl_library = rule(
    doc = "A folder of modules that others import by name.",
    implementation = _wesl_library_impl,
    attrs = dict(
        _MODULES,
        import_name = attr.string(doc = "The name by which others import it; that of the target if left out."),
    ),
    provides = [WeslLibraryInfo],
)

_VALIDATION = {"names": [], "calls": ["--validate"], "none": ["--no-validate"]}

def _words(ctx, unit, source_map):
    """The words of a link."""
    words = ctx.actions.args()
    words.add(_folder(ctx))
    words.add(ctx.attr.root, format = "--root=%s")
    words.add_all(ctx.attr.keep, format_each = "--keep=%s")
    words.add_all(ctx.attr.flags, format_each = "--feature=%s")
    if ctx.attr.feature_set:
        words.add(ctx.attr.feature_set, format = "--set=%s")
    if ctx.attr.other_features:
        words.add(ctx.attr.other_features, format = "--other-features=%s")
    words.add_all(["%s=%s" % package for package in _packages(ctx).items()], format_each = "--package=%s")
    words.add(ctx.attr.mangler, format = "--mangler=%s")
    words.add_all(_VALIDATION[ctx.attr.validation])
    for name in ["copies", "eager", "mangle_root", "no_comments", "no_features"]:
        if getattr(ctx.attr, name):
            words.add("--" + name.replace("_", "-"))
    words.add_all(ctx.files.builtins, format_each = "--builtins=%s")
    words.add(unit, format = "--output=%s")
    words.add(source_map, format = "--map=%s")
    words.add("--color=never")
    return words

def _wesl_link_impl(ctx):
    unit, source_map = ctx.outputs.unit, ctx.outputs.source_map
    ctx.actions.run(
        executable = ctx.attr.wesl_text[WeslProgramInfo].executable,
        arguments = [_words(ctx, unit, source_map)],
        inputs = depset(ctx.files.builtins, transitive = [_files(ctx)]),
        outputs = [unit, source_map],
        env = {},
        mnemonic = "WeslLink",
        progress_message = "Linking the shader %s" % ctx.label,
    )
    return [
        DefaultInfo(files = depset([unit, source_map])),
        OutputGroupInfo(unit = depset([unit]), source_map = depset([source_map])),
        WeslUnitInfo(unit = unit, source_map = source_map),
    ]

_wesl_link = rule(
    doc = "Links modules to one unit of WGSL, with its source map.",
    implementation = _wesl_link_impl,
    attrs = dict(
        _MODULES,
        root = attr.string(default = "package::main", doc = "The path of the root."),
        keep = attr.string_list(doc = "The names of the root that are kept; its entry points if left out."),
        flags = attr.string_list(doc = "The answers to flags, each `NAME` or `NAME=WORD`."),
        other_features = attr.string(
            doc = "The answer to all other flags: what the set says, or else `disable`, if left out.",
            values = ["", "enable", "disable", "keep", "error"],
        ),
        feature_set = attr.string(doc = "The set of flags of this name in the `wesl.toml` or `project.json` of srcs."),
        mangler = attr.string(default = "escape", values = ["escape", "unicode", "none"]),
        validation = attr.string(
            default = "names",
            doc = "What is asked of the unit: that names are declared or built in, that calls fit too, or nothing.",
            values = ["names", "calls", "none"],
        ),
        builtins = attr.label(
            allow_single_file = True,
            doc = "The names that are built in; those of WGSL if left out.",
        ),
        copies = attr.bool(doc = "Links a library once for each library that uses it."),
        eager = attr.bool(doc = "Follows every import, and prints all that the loaded modules declare."),
        mangle_root = attr.bool(doc = "Writes the root's names as those of other modules."),
        no_comments = attr.bool(doc = "Prints no comment before declarations."),
        no_features = attr.bool(doc = "Judges no condition."),
        wesl_text = attr.label(
            default = Label("//:wesl_text"),
            doc = "The `wesl_program`; what the flag `wesl_text` of this repository says if left out.",
            providers = [WeslProgramInfo],
        ),
        unit = attr.output(mandatory = True),
        source_map = attr.output(mandatory = True),
    ),
    provides = [WeslUnitInfo],
)

def wesl_link(name, features = [], unit = None, source_map = None, **attributes):
    """Links modules under one set of features: the file `NAME.wgsl`, and its source map `NAME.wgsl.map`.

    Args:
      name: the name of the target
      features: the answers to flags, each `NAME`, which enables it, or `NAME=WORD` (enable, disable, keep, error)
      unit: the name of the file of WGSL, if it is to be another
      source_map: the name of the source map, if it is to be another
      **attributes: those of the rule above, but that `flags` is `features` here, since Bazel keeps that name for itself
    """
    unit = unit or name + ".wgsl"
    _wesl_link(
        name = name,
        flags = features,
        unit = unit,
        source_map = source_map or unit + ".map",
        **attributes
    )

def _wesl_program_impl(ctx):
    program = WeslProgramInfo(executable = ctx.attr.executable[DefaultInfo].files_to_run)
    return [DefaultInfo(files = depset([ctx.executable.executable])), program]

wesl_program = rule(
    doc = "Says which file is the program `wesl-text`.",
    implementation = _wesl_program_impl,
    attrs = {
        "executable": attr.label(
            allow_files = True,
            cfg = "exec",
            doc = "The program, which runs where actions run.",
            executable = True,
            mandatory = True,
        ),
    },
    provides = [WeslProgramInfo],
)

def _no_program_impl(ctx):
    fail("no program wesl-text is given: make a wesl_program, and say --%s=LABEL of it" % Label("//:wesl_text"))

no_program = rule(
    doc = "What stands for the program where none is given.",
    implementation = _no_program_impl,
    provides = [WeslProgramInfo],
)
