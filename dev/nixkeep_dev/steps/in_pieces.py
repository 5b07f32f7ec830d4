"""Gives a command its standard input in many ways: `in-pieces [--each] COMMAND [WORD]..`.

The input comes whole, byte by byte (the last 4,096 bytes alone, where it has more than 32,768), and in two pieces,
cut at each place. An input of more than 128 bytes is cut at 16 places, but with `--each` at each one too. A piece
comes only when all before it was read. Prints what the command gave for the whole input, ends with its status, and
says for which of the others something else came.
"""
import sys

from nixkeep_dev.testing.pieces import run


def main():
    if sys.argv[1:] == ["--help"]:
        sys.exit(print(__doc__))
    is_each = sys.argv[1] == "--each"
    command, given = sys.argv[1 + is_each :], sys.stdin.buffer.read()
    step = 1 if is_each or len(given) <= 128 else len(given) // 16
    whole = run(command, [given[at : at + 4096] for at in range(0, len(given), 4096)])
    start = len(given) - 4096 if len(given) > 32_768 else 0
    ways = {"byte by byte": [given[:start]] * (start > 0) + [given[at : at + 1] for at in range(start, len(given))]}
    for at in range(1, len(given), step):
        ways[f"cut after byte {at}"] = [given[:at], given[at:]]
    sys.stdout.buffer.write(whole[0])
    for way, pieces in ways.items():
        came = run(command, pieces)
        if came != whole:
            print(f"{way}: {came}", file=sys.stderr)
    return whole[1]


if __name__ == "__main__":
    sys.exit(main())
