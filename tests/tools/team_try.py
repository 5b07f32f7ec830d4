"""The script examples/team/try as a module."""
import importlib.machinery
import importlib.util

import parts


def loaded():
    loader = importlib.machinery.SourceFileLoader("team_try", f"{parts.HERE}/try")
    module = importlib.util.module_from_spec(importlib.util.spec_from_loader("team_try", loader))
    loader.exec_module(module)
    return module


TEAM = loaded()
