"""Prints a scenario in the form of the cases of the repository, with what the model says of each step."""
import difflib
import re
import shlex

from nixkeep_dev.testing.cases import lines_of
from . import tables
from .runs import FILE, Scenario, pieces_of

SHOWN = r"sed 's/\r/\\r/g'"


def printf(data):
    """A command that writes these bytes."""
    shown = "".join(chr(byte) if 32 <= byte < 127 and byte not in b"'%\\" else escape(byte) for byte in data)
    return f"printf '{shown}'"


def escape(byte):
    return {10: "\\n", 13: "\\r", 37: "%%", 92: "\\\\"}.get(byte, f"\\{byte:03o}")


def literal(value):
    if value is None:
        return "NULL"
    if isinstance(value, bytes):
        return f"X'{value.hex()}'"
    return str(value) if isinstance(value, int) else "'" + value.replace("'", "''") + "'"


def statements(rows):
    """The statements that make the tables and their rows."""
    for name, of_table in rows.items():
        yield tables.making(name)
        for row in sorted(of_table, key=repr):
            yield f"INSERT INTO {name} VALUES ({', '.join(map(literal, row))});"


def step_text(command, output=b"", errors=b"", status=0):
    """A step of a case: a command, and what it prints and ends with."""
    lines = ["$ " + command.replace("\n", "\n> "), *map(line_text, lines_of(output))]
    lines += ["2> ..."] if errors is None else ["2> " + line for line in lines_of(errors)]
    lines += [f"[{status}]"] * (status != 0)
    return "\n".join("  " + line for line in "\n".join(lines).split("\n")) + "\n"


def line_text(line):
    is_form = line in ("", "...", "|") or line.startswith(("2>", "| ", "$ ", "> ")) or re.fullmatch(r"\[\d+\]", line)
    return ("| " + line).rstrip(" ") if is_form or line.endswith(" (glob)") else line


def command_text(step):
    """The command of a step, with what writes its input."""
    command = f"nixkeep {shlex.join(step.words)}"
    if step.cuts:
        pieces = "; sleep 0.1; ".join(map(printf, pieces_of(step)))
        return f"{{ {pieces}; }} | {command}"
    parts = [printf(part) for part in step.parts if part]
    if not parts:
        return command + " </dev/null"
    return "{ " + ";\n".join(parts) + f"; }} | {command}" if len(parts) > 1 else f"{parts[0]} | {command}"


def run_text(step, wanted):
    """The steps of a case that show a command."""
    output, errors, status = wanted
    if b"\r" in output:
        shown = output.replace(b"\r", b"\\r")
        made = step_text(f"{command_text(step)} >replies", b"", errors, status)
        return made + "\n" + step_text(f"{SHOWN} replies", shown)
    return step_text(command_text(step), output, errors, status)


def rows_text(rows, others):
    """Steps that show the rows of those tables in which two databases differ."""
    for name, (_, key, _) in tables.TABLES.items():
        if rows.get(name) != others.get(name):
            places = [tables.columns_of(name).index(column) for column in key.split(", ")]
            ordered = sorted(rows.get(name, ()), key=lambda row: [row[at] for at in places])
            lines = "".join(",".join(map(literal, row)) + "\n" for row in ordered)
            command = f"sqlite3 -quote {FILE} 'SELECT * FROM {name} ORDER BY {key}'"
            yield step_text(command, lines.encode(), b"" if name in rows else None, 0 if name in rows else 1)


def case_text(scenario: Scenario, difference: tuple) -> str:
    """The whole case, up to the step that differs."""
    at, wanted, came = difference
    texts = []
    for name, text in scenario.configs.items():
        if any(name in step.words for step in scenario.steps):
            texts.append(step_text(f"{printf(text)} >{name}"))
    if scenario.rows is None:
        texts.append(step_text(f"yes 'not a database' | head -n 100 >{FILE}"))
    elif scenario.rows:
        lines = "\n".join(statements(scenario.rows))
        texts.append(step_text(f"sqlite3 {FILE} <<'END'\n{lines}\nEND"))
    machine = scenario.machine()
    texts += [run_text(step, machine.run(step.words, step.input())) for step in scenario.steps[: at + 1]]
    if at == len(scenario.steps):
        texts += rows_text(wanted, came)
    return "\n".join(texts)


def came_text(scenario: Scenario, difference: tuple) -> str:
    """What the program gave, as a difference from the lines of the case."""
    at, wanted, came = difference
    if at == len(scenario.steps):
        texts = ["\n".join(rows_text(*pair)) for pair in ((wanted, came), (came, wanted))]
    else:
        texts = [run_text(scenario.steps[at], run) for run in (wanted, came)]
    lines = [text.splitlines() for text in texts]
    return "\n".join(difflib.unified_diff(*lines, "wanted", "came", lineterm="", n=5)) + "\n"
