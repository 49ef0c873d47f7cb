"""Type hints: each public function, method and attribute of the package has them."""
import ast
import enum
import inspect
import pathlib
import unittest

import bidi_proved as bidi
from bidi_proved import algorithm, library

from . import small_tables

PUBLIC = [*(getattr(bidi, name) for name in bidi.__all__), algorithm.get_display, algorithm.get_base_level]
FUNCTIONS = [it for it in PUBLIC if inspect.isfunction(it)]
CLASSES = [it for it in PUBLIC if inspect.isclass(it) and not issubclass(it, enum.Enum)]


def without_hints(call):
    """Returns the parameters of a function that have no hints, and "return" if its result has none."""
    signature = inspect.signature(call)
    hints = {name: parameter.annotation for name, parameter in signature.parameters.items()}
    hints["return"] = signature.return_annotation
    return [name for name, hint in hints.items() if hint is inspect.Signature.empty and name not in ("self", "cls")]


def methods_of(kind):
    """Yields the public methods and properties of a class of the package, with those that it inherits from it."""
    for base in kind.__mro__:
        if not base.__module__.startswith("bidi_proved"):
            continue
        for name, member in vars(base).items():
            member = getattr(member, "fget", getattr(member, "__func__", member))
            if inspect.isfunction(member) and (name == "__init__" or not name.startswith("_")):
                yield f"{base.__name__}.{name}", member


class Hints(unittest.TestCase):
    def test_names(self):
        """All that __init__ imports is listed in `__all__`, which checkers of types read in the source."""
        source = ast.parse(pathlib.Path(bidi.__file__).read_text(encoding="utf-8"))
        imports = [it for it in source.body if isinstance(it, ast.ImportFrom)]
        self.assertEqual(bidi.__all__, sorted(name.name for it in imports for name in it.names))

    def test_functions(self):
        self.assertGreater(len(FUNCTIONS), 15)
        for function in FUNCTIONS:
            self.assertEqual(without_hints(function), [], function.__name__)

    def test_methods(self):
        methods = {name: method for kind in CLASSES for name, method in methods_of(kind)}
        self.assertIn("Tables.read", methods)
        self.assertIn("Utf8Line.levels", methods)
        for name, method in methods.items():
            self.assertEqual(without_hints(method), [], name)

    def test_attributes(self):
        tables = small_tables()
        layout, utf8 = bidi.lay_out("ab", tables), bidi.lay_out_utf8("ab", tables)
        objects = [
            tables, bidi.Room(2), layout, layout.lines[0], layout.line_of(0, 1), bidi.Utf8Room(2), utf8, utf8.lines[0],
            bidi.Judge(), bidi.Report(), bidi.NoCharacter(1), bidi.ClassFileFault(1, 2), bidi.MalformedLine(1, 2),
        ]
        if library.HAS_UTF8_LINE_OF:
            objects.append(utf8.line_of(0, 1))
        for it in objects:
            public = {name for name in vars(it) if not name.startswith("_")}
            hints = {name for base in type(it).__mro__ for name in getattr(base, "__annotations__", {})}
            self.assertLessEqual(public, hints, type(it).__name__)
