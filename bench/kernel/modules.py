"""Programs of this repository as modules."""

import importlib.machinery
import importlib.util
import os
import sys


def module(path):
    """A program whose file has no ending."""
    loader = importlib.machinery.SourceFileLoader(os.path.basename(path), path)
    made = importlib.util.module_from_spec(importlib.util.spec_from_loader(loader.name, loader))
    sys.modules[loader.name] = made
    loader.exec_module(made)
    return made
