"""The examples of the docstrings and of python/README.md."""
import doctest
import importlib
import importlib.util
import inspect
import re
import unittest

import made
import wurgalm

NAMES = ("arguments", "calls", "differential", "library", "logs", "refusals", "systems")
MODULES = ["wurgalm", *(f"wurgalm.{name}" for name in NAMES)]
WITH_SYMPY = ["wurgalm.expressions"]


def has_sympy():
    return importlib.util.find_spec("sympy") is not None


class Pages(unittest.TestCase):
    def holds(self, done):
        self.assertEqual(done.failed, 0)
        self.assertGreater(done.attempted, 0)

    def test_docstrings(self):
        for name in MODULES:
            with self.subTest(name):
                self.holds(doctest.testmod(importlib.import_module(name), verbose=False))

    @unittest.skipUnless(has_sympy(), "SymPy is not there")
    def test_docstrings_with_sympy(self):
        for name in WITH_SYMPY:
            self.holds(doctest.testmod(importlib.import_module(name), verbose=False))

    @unittest.skipUnless(has_sympy(), "SymPy is not there")
    def test_the_page(self):
        self.holds(doctest.testfile(str(made.ROOT / "python/README.md"), module_relative=False, verbose=False))

    def test_the_section_of_the_front_page(self):
        self.holds(doctest.testfile(str(made.ROOT / "README.md"), module_relative=False, verbose=False))

    def test_every_module_is_looked_at(self):
        modules = {path.stem for path in (made.ROOT / "python/wurgalm").glob("*.py")} - {"__init__"}
        self.assertEqual({f"wurgalm.{name}" for name in modules} | {"wurgalm"}, {*MODULES, *WITH_SYMPY})

    def test_everything_is_documented_and_typed(self):
        """Each public name has a docstring, and each argument and result of a public function or method a type."""
        named = {f"wurgalm.{name}": getattr(wurgalm, name) for name in wurgalm.__all__}
        for name in [*MODULES[1:], *(WITH_SYMPY if has_sympy() else [])]:
            module = importlib.import_module(name)
            self.assertTrue(module.__doc__, name)
            own = {key: value for key, value in vars(module).items() if getattr(value, "__module__", None) == name}
            named |= {f"{name}.{key}": value for key, value in own.items() if not key.startswith("_")}
        functions = {name: value for name, value in named.items() if inspect.isfunction(value)}
        classes = {name: value for name, value in named.items() if inspect.isclass(value)}
        for name, value in classes.items():
            self.assertTrue(inspect.getdoc(value), name)
            functions |= {f"{name}.{key}": method for key, method in vars(value).items()
                          if inspect.isfunction(method) and not key.startswith("_")}
        self.assertGreater(min(len(functions), len(classes)), 20)
        for name, function in functions.items():
            with self.subTest(name):
                self.assertTrue(inspect.getdoc(function))
                signature = inspect.signature(function)
                self.assertIsNot(signature.return_annotation, signature.empty)
                untyped = [key for key, p in signature.parameters.items() if p.annotation is p.empty and key != "self"]
                self.assertEqual(untyped, [])

    def test_sentences(self):
        """A refusal says here what it says in the Rust crate and the command, in the header and on its page."""

        def found(path, pattern):
            return re.findall(pattern, (made.ROOT / path).read_text(encoding="utf-8"), re.M)

        told = {number: refusal.sentence for number, refusal in wurgalm.REFUSALS.items()}
        crate = found("rust/wurgalm/src/refusal.rs", r"^ +(\d+) => \"(.*)\",$")
        self.assertEqual({int(number): sentence for number, sentence in crate}, told)
        numbers = dict(found("include/wurgalm.h", r"^    (WURGALM_\w+) = (\d+),?$"))
        header = found("include/wurgalm.h", r"^    case (WURGALM_\w+):\n        return \"(.*)\";$")
        self.assertEqual({int(numbers[name]): sentence for name, sentence in header}, {0: "accepted", **told})
        page = found("docs/REFUSALS.md", r"^## (\d+) (.*)$")
        self.assertEqual({int(number): sentence[0].lower() + sentence[1:] for number, sentence in page}, told)
        for path in ("rust/wurgalm/src/refusal.rs", "include/wurgalm.h"):
            self.assertEqual(len(found(path, f"\"{wurgalm.Refused.sentence}\"")), 1 if path.endswith(".h") else 2)

    @unittest.skipIf(has_sympy(), "SymPy is there")
    def test_expressions_say_what_they_need(self):
        self.assertRaisesRegex(ImportError, "needs SymPy", importlib.import_module, "wurgalm.expressions")
