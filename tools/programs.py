"""The programs of this folder, whose names have no ending, as modules for tests."""
import importlib.machinery
import importlib.util
import os
import types

import sources


def program(name: str) -> types.ModuleType:
    """A program of this folder, whose name has no ending, as a module."""
    loader = importlib.machinery.SourceFileLoader(name, os.path.join(sources.ROOT, "tools", name))
    module = importlib.util.module_from_spec(importlib.machinery.ModuleSpec(name, loader))
    loader.exec_module(module)
    return module
