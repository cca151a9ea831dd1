"""The examples in the package's docstrings, document 01's figures among them, and in README.md."""

import doctest
import importlib
import pkgutil
import unittest

import dowelbrook


def load_tests(loader, tests, pattern):
    modules = [module.name for module in pkgutil.iter_modules(dowelbrook.__path__) if module.name != "__main__"]
    for name in ("dowelbrook", *(f"dowelbrook.{name}" for name in modules)):
        tests.addTest(doctest.DocTestSuite(importlib.import_module(name)))
    tests.addTest(doctest.DocFileSuite("../../README.md", encoding="utf-8"))
    return tests


if __name__ == "__main__":
    unittest.main()
