"""Tests of wesl.py: python3 -m unittest, in this folder."""

import concurrent.futures
import json
import pathlib
import unittest

import wesl

EXAMPLES = pathlib.Path(__file__).resolve().parents[2] / "examples"


def bundle_of(name):
    return (EXAMPLES / f"{name}.json").read_text(encoding="utf-8")


def long_bundle(module, count):
    """The bundle of a module of this name with many declarations, which the root imports."""
    root = {
        "imports": [{"path": f"package::{module}", "content": {"item": "c0"}}],
        "declarations": [{"k": "const", "name": "k", "init": "c0"}],
    }
    other = {"declarations": [{"k": "const", "name": f"c{index}"} for index in range(count)]}
    modules = [{"path": "package::main", "unit": root}, {"path": f"package::{module}", "unit": other}]
    return {"root": "package::main", "keep": ["k"], "modules": modules}


class Links(unittest.TestCase):
    def test_every_example_has_its_line(self):
        files = sorted(EXAMPLES.glob("*.json"))
        self.assertGreater(len(files), 30)
        for file in files:
            with self.subTest(file.stem):
                wanted = file.with_suffix(".out").read_bytes()
                is_answer, line = wesl.link_line(file.read_bytes())
                self.assertEqual(line, wanted)
                self.assertEqual(is_answer, "fault" not in json.loads(wanted))

    def test_an_answer_tells_its_names(self):
        answer = wesl.link(bundle_of("two_modules"))
        self.assertFalse(answer.clash)
        self.assertEqual(answer.map["package_util_two"], ("package::util", "two"))
        self.assertEqual([it["name"] for it in answer.unit["declarations"]], ["total", "package_util_two"])
        self.assertTrue(wesl.link(bundle_of("clash").encode()).clash)

    def test_a_fault_tells_what_and_where(self):
        with self.assertRaises(wesl.Fault) as caught:
            wesl.link(bundle_of("fault_span"))
        fault = caught.exception
        self.assertEqual((fault.kind, fault.module, fault.span), ("InvalidExpression", "package::m", (4, 5)))
        with self.assertRaises(wesl.Fault) as caught:
            wesl.link({"root": "package::m"})
        self.assertEqual(str(caught.exception), "ModuleNotFound 'package::m' 'virtual module'")
        with self.assertRaises(wesl.Fault) as caught:
            wesl.link(b"")
        self.assertEqual(caught.exception.kind, "NotJson")

    def test_texts_are_linked_to_a_text(self):
        files = sorted((EXAMPLES / "texts").glob("*.json"))
        self.assertGreater(len(files), 1)
        for file in files:
            with self.subTest(file.stem):
                wanted = file.with_suffix(".out").read_bytes()
                is_answer, line = wesl.link_texts_line(file.read_bytes())
                self.assertEqual(line, wanted)
                self.assertEqual(is_answer, "fault" not in json.loads(wanted))
        answer = wesl.link_texts({"root": "package::m", "eager": True, "modules": [{"path": "package::m", "unit": "const k=1;"}]})
        self.assertEqual((answer.text, answer.clash, answer.map), ("const k = 1;\n", False, {}))
        with self.assertRaises(wesl.Fault) as caught:
            wesl.link_texts({"root": "package::m", "modules": [{"path": "package::m", "unit": "const k 1;"}]})
        fault = caught.exception
        self.assertEqual((fault.kind, fault.module, fault.span), ("BadTree", "package::m", (8, 8)))
        self.assertEqual(fault.arguments, ["expected `=`, found `1`"])

    def test_a_line_longer_than_the_first_buffer_is_whole(self):
        self.assertEqual(len(wesl.link(long_bundle("m" * 2000, 200)).map), 200)

    def test_the_library_has_the_version_of_the_header(self):
        header = (EXAMPLES.parent / "include/wesl.h").read_text(encoding="utf-8")
        major, minor, patch = wesl.library_version()
        self.assertIn(f"#define WESL_VERSION {major * 10000 + minor * 100 + patch}\n", header)

    def test_threads_link_at_one_time(self):
        bundle = json.dumps(long_bundle("m", 100)).encode()
        with concurrent.futures.ThreadPoolExecutor(4) as pool:
            lines = set(pool.map(wesl.link_line, [bundle] * 20))
        self.assertEqual(len(lines), 1)


if __name__ == "__main__":
    unittest.main()
