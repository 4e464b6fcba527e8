"""The scripts of this repository as modules, for checks and tests that stand on what they do."""
import functools
import importlib.machinery
import importlib.util
import os

from program import ROOT


def as_module(path):
    """The script with this path in the repository, as a module."""
    loader = importlib.machinery.SourceFileLoader(os.path.basename(path), os.path.join(ROOT, path))
    module = importlib.util.module_from_spec(importlib.util.spec_from_loader(loader.name, loader))
    loader.exec_module(module)
    return module


@functools.cache
def cases():
    """The runner of cases as a module."""
    return as_module("checks/cases")
