"""The examples in the module's own words are run."""

import doctest
from importlib import import_module
from pkgutil import iter_modules

import sobumikeyo


def load_tests(loader, tests, pattern):
    names = [f"sobumikeyo.{module.name}" for module in iter_modules(sobumikeyo.__path__)]
    tests.addTests(doctest.DocTestSuite(import_module(name)) for name in ["sobumikeyo", *names])
    return tests
