"""Running a program that needs a Debian package, which is named if it isn't installed."""
import importlib
import sys


def run(program: str, module: str, package: str) -> None:
    try:
        command = importlib.import_module(f"nixkeep_tools.{module}")
    except ModuleNotFoundError as missing:
        sys.exit(f"{program}: {missing}: install the Debian package {package}")
    command.main()
