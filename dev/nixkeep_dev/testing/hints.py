"""Type hints: the functions that another module calls, and which of them lack some.

A function counts where another module imports it, or names it after its module. A method counts where another module
imports that of its class, and one names such a method; `__init__` where another one names the class. What begins with
`_` belongs to its module, and a test is called by pytest alone.
"""
import ast
import collections
from collections.abc import Iterable, Iterator

from nixkeep_dev.testing.tracked import text_of

# Folders whose modules are imported by their paths below them.
TOPS = ("dev/", "tools/", "examples/team/")


def name_of(path: str) -> str:
    """The name by which a file is imported."""
    below = next((path.removeprefix(top) for top in TOPS if path.startswith(top)), path)
    return below.removesuffix(".py").removesuffix("/__init__").replace("/", ".")


class Names:
    """What modules name of others: `of_modules` has by the file and the name in it those that name it, `attributes` by
    each other name after a dot those that have it, and `importers` by the file those that import it."""

    def __init__(self, trees: dict[str, ast.Module]):
        self.files = {name_of(path): path for path in trees}
        self.of_modules, self.attributes, self.importers = (collections.defaultdict(set) for _ in range(3))
        for path, tree in trees.items():
            self.read(path, tree)

    def read(self, path: str, tree: ast.Module) -> None:
        modules = {}
        for node in ast.walk(tree):
            if isinstance(node, ast.Import):
                modules |= {alias.asname or alias.name: self.files[alias.name] for alias in node.names
                            if alias.name in self.files}
            elif isinstance(node, ast.ImportFrom):
                modules |= self.imported(path, node)
        for file in modules.values():
            self.importers[file].add(path)
        for node in ast.walk(tree):
            if isinstance(node, ast.Attribute):
                file = modules.get(ast.unparse(node.value))
                (self.of_modules[file, node.attr] if file else self.attributes[node.attr]).add(path)

    def imported(self, path: str, node: ast.ImportFrom) -> dict[str, str]:
        """The files of the modules that an import names, by their names in this one. It notes other names."""
        package = name_of(path).split(".")[:-node.level] if node.level else []
        origin, names = ".".join([*package, *([node.module] if node.module else [])]), {}
        for name in node.names:
            file = self.files.get(f"{origin}.{name.name}" if origin else name.name)
            if file:
                names[name.asname or name.name] = file
            elif origin in self.files:
                self.of_modules[self.files[origin], name.name].add(path)
                self.importers[self.files[origin]].add(path)
        return names

    def are_called(self, path: str, name: str, owner: str | None) -> bool:
        """Whether another module names a function, or a method of the class `owner`."""
        if name == "__init__" or not owner:
            return bool(self.of_modules[path, owner if owner else name] - {path})
        return bool(self.importers[path] - {path}) and bool(self.attributes[name] - {path})


def functions(body: Iterable[ast.stmt], owner: str | None = None) -> Iterator[tuple]:
    """The functions and methods of some statements that other modules may call, each with the name of its class."""
    for node in body:
        if isinstance(node, ast.FunctionDef | ast.AsyncFunctionDef):
            if node.name == "__init__" or not node.name.startswith(("_", "test_")):
                yield node, owner
        elif isinstance(node, ast.ClassDef) and not node.name.startswith("_"):
            yield from functions(node.body, node.name)


def lacking(node: ast.FunctionDef | ast.AsyncFunctionDef, is_method: bool) -> list[str]:
    """The parameters of a function that have no hint, and `return` if it says nothing of that."""
    given = node.args
    is_static = any(isinstance(decorator, ast.Name) and decorator.id == "staticmethod"
                    for decorator in node.decorator_list)
    named = [*given.posonlyargs, *given.args][is_method and not is_static:]
    named += [*given.kwonlyargs, *(arg for arg in (given.vararg, given.kwarg) if arg)]
    says = node.returns is not None or node.name == "__init__"
    return [arg.arg for arg in named if arg.annotation is None] + ["return"] * (not says)


def faults(paths: Iterable[str]) -> Iterator[str]:
    """A line for each function of these files that another one of them calls, and that lacks a hint."""
    trees = {path: ast.parse(text_of(path)) for path in paths}
    names = Names(trees)
    for path, tree in trees.items():
        for node, owner in functions(tree.body):
            left = lacking(node, owner is not None)
            if left and names.are_called(path, node.name, owner):
                yield f"{path}:{node.lineno}: {node.name} has no hint for {', '.join(left)}"
