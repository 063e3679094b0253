"""The toolchain's own script `rt`, as a module."""
import importlib.machinery
import importlib.util
import os
import shutil


def script():
    """The `rt` that is first on the path. What goes wrong here is a kit whose `rt` is made otherwise."""
    loader = importlib.machinery.SourceFileLoader("rt", os.path.realpath(shutil.which("rt") or "rt"))
    made = importlib.util.module_from_spec(importlib.util.spec_from_loader("rt", loader))
    loader.exec_module(made)
    return made
