#!/usr/bin/env python3
"""Links the bundle on standard input, and writes its line, as the program wesl-link does: status 0 where a unit was
linked, 1 where the line tells a fault. The module wesl is bindings/python/wesl.py."""

import sys

import wesl

is_answer, line = wesl.link_line(sys.stdin.buffer.read())
sys.stdout.buffer.write(line)
sys.exit(0 if is_answer else 1)
