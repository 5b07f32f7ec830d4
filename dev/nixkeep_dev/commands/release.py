"""Makes release/ from the program that was proved: the program, packed, and what it was made of.

    bin/release [--check]

Proves and builds the program first where that isn't done for the present sources. release/ is what bin/nixkeep,
bin/install and bin/package use where there is no toolchain, so it is made anew, and committed, with each change of the
program's sources or of the file VERSION; nothing else writes it.

--check says whether release/ is that of the present sources, and writes nothing: status 0 if it is, else 1.
"""
import argparse
import sys

from nixkeep_dev.build import program, release


def check():
    wrong = release.faults()
    for line in wrong:
        print(f"bin/release: {line}", file=sys.stderr)
    if wrong:
        sys.exit("bin/release: `bin/release` makes release/ anew from the proved program")
    print("release/ is that of the present sources")


def main() -> None:
    parser = argparse.ArgumentParser(description=__doc__, formatter_class=argparse.RawDescriptionHelpFormatter)
    parser.add_argument("--check", action="store_true", help="only say whether release/ is of the present sources")
    if parser.parse_args().check:
        return check()
    program.prove([program.NAME])
    record = release.make()
    print(f"release/: nixkeep {record['version']}, sha256 {record['program']}")


if __name__ == "__main__":
    main()
