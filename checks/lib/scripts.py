"""A script of this repository as a module."""

import importlib.machinery
import importlib.util
import os
from types import ModuleType

from program import TOP


def script(name: str, folder: str = "checks") -> ModuleType:
    """The module of a script, of which main isn't called."""
    loader = importlib.machinery.SourceFileLoader(name, os.path.join(TOP, folder, name))
    spec = importlib.util.spec_from_loader(name, loader)
    assert spec
    module = importlib.util.module_from_spec(spec)
    loader.exec_module(module)
    return module
