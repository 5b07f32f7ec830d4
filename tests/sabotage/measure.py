"""Runs each part that notices planted faults, without a fault, and writes what it takes to tests/sabotage/costs.txt.

A NAME is a part of a part's words: without one, all are run. Needs git and what the parts need.
"""
from nixkeep_dev.testing import days, report, sabotage, sabotage_runs


def more(parser):
    parser.add_argument("names", nargs="*", metavar="NAME")


def run(words):
    file, copies, costs = report.program_file(words), sabotage.Copies(words.folder), {}
    for part in sorted(sabotage.parts_of_table()):
        if words.names and not any(name in " ".join(part) for name in words.names):
            continue
        ran = sabotage_runs.without_fault(copies, part, file, days.Bound(None))
        if ran.status == 0:
            report.tell(f"{ran.work:.1f} processor seconds: {' '.join(part)}")
            report.passes()
            costs[part] = ran.work
        else:
            report.failure(f"{' '.join(part)}: it fails without a fault:\n{ran.last()}")
    sabotage.write_costs(costs)
    return len(report.wrong)


if __name__ == "__main__":
    report.script(__doc__, run, more=more, need=["git"])
