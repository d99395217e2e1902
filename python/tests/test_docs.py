"""What `help(hernganow)` shows: every public thing has a docstring and types, and every example in one says what it prints."""
import doctest
import inspect
import os
import pydoc
import re
import unittest

import common
import hernganow

# The pages with blocks marked `python`.
PAGES = ("README.md", "docs/INTERFACE.md")
PYTHON = re.compile(r"^```python\n((?:(?!```).*\n)+)```$", re.M)
PUBLIC = [(name, getattr(hernganow, name)) for name in hernganow.__all__]
MODULES = (hernganow.dates, hernganow.keys)
CALLS = [(f"{module.__name__}.{name}", getattr(module, name)) for module in MODULES for name in module.__all__]


def members(thing):
    return [member for name, member in vars(thing).items() if not name.startswith("_")] if inspect.isclass(thing) else []


class Documented(unittest.TestCase):
    def test_every_example(self):
        os.chdir(common.ROOT)
        finder, runner = doctest.DocTestFinder(exclude_empty=True), doctest.DocTestRunner()
        things = [(name, thing) for name, thing in PUBLIC if not inspect.ismodule(thing)] + CALLS
        tried = 0
        for name, thing in things:
            for example in finder.find(thing, name, module=False, globs={"hernganow": hernganow}):
                runner.run(example)
                tried += len(example.examples)
        self.assertEqual(runner.failures, 0)
        self.assertGreater(tried, 25)

    def test_every_example_of_the_pages(self):
        os.chdir(common.ROOT)
        runner = doctest.DocTestRunner()
        for page in PAGES:
            for at, text in enumerate(PYTHON.findall((common.ROOT / page).read_text())):
                runner.run(doctest.DocTestParser().get_doctest(text, {}, f"{page}, example {at + 1}", page, 0))
        self.assertEqual(runner.failures, 0)

    def test_every_call_has_an_example(self):
        for name, thing in PUBLIC + CALLS:
            for call in [thing] if inspect.isfunction(thing) else [m for m in members(thing) if inspect.isfunction(m)]:
                self.assertIn(">>> ", inspect.getdoc(call), (name, call))

    def test_everything_has_a_docstring(self):
        for name, thing in PUBLIC + CALLS:
            self.assertTrue(inspect.getdoc(thing), name)
            for member in members(thing):
                if callable(member) or isinstance(member, property):
                    self.assertTrue(inspect.getdoc(member), (name, member))

    def test_every_call_has_types(self):
        for name, thing in PUBLIC + CALLS:
            for call in [thing] if inspect.isfunction(thing) else [m for m in members(thing) if inspect.isfunction(m)]:
                signature = inspect.signature(call)
                self.assertIsNot(signature.return_annotation, inspect.Signature.empty, (name, call))
                for parameter in list(signature.parameters.values()):
                    self.assertTrue(parameter.name == "self" or parameter.annotation is not inspect.Parameter.empty, (name, call))

    def test_help_can_be_read(self):
        text = pydoc.render_doc(hernganow, renderer=pydoc.plaintext)
        for said in ("records(source", "class Receiver(Record)", "class Ledger", "The letter of the uplink band"):
            self.assertIn(said, text)
        self.assertLess(max(map(len, text.splitlines())), 240)
