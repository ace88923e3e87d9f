"""From shader text to shader text by the linker: a companion for people and tests, of which nothing is proved.

`source` has files and their places, `lexer` and `parser` read WESL text into trees of form 2, `printer` prints trees as
WGSL, `project` makes bundles of folders, `link` runs the program `wesl-link` and tells its faults by file, line and
column, and `command` is the command line of `tools/wesl-text`.
"""
