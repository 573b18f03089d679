"""Compares the archive with the model: every answer and all lent memory of COUNT calls, random but for the SEED, and of the groups
that are worked whole.

    python3 tests/compare.py [--groups A,B] [--heights 1,2] [--first] [--again GROUP:HEIGHT:EPISODE] [COUNT [SEED]]

FF_CC, FF_ARCHIVE, FF_RUN_ARCHIVE and FF_EMULATOR name the compiler, the archives of `host` and `told`, and the emulator if there is one
(tests/run sets them).
"""
import argparse
import collections
import concurrent.futures
import os
import random
import sys
import tempfile

import cases
import model
import oracle
import wire

Task = collections.namedtuple("Task", "group height calls seed program episodes")
ENDLESS = 10 ** 9


def difference(driver, lent):
    """Makes one call both ways. Gives the outcome by the model, and None or what differs."""
    driver.ask(lent)
    returned, after = oracle.outcome(lent)
    if wire.lengths(after) != wire.lengths(lent):
        return (returned, after), "returned %d by the model, with a slice of another length" % returned
    wanted = wire.answer(returned, after)
    got = driver.answered(len(wanted))
    if got == wanted:
        return (returned, after), None
    if len(got) < len(wanted):
        return None, "the driver ended"
    return (returned, after), wire.where(got, wanted, after)


def told(lent):
    """A call in short."""
    sizes = " ".join("%s %d" % (name, len(slice)) for name, slice in zip(wire.SLICES, lent.slices()) if slice)
    return "%s(%d, %d, card %d) lent %s" % (lent.call, lent.profile, lent.number, lent.card, sizes)


class Cell:
    """The calls of one group at one height."""

    def __init__(self, task):
        self.task = task
        self.calls = 0
        self.reached = collections.Counter()
        self.differences = []

    def play(self, driver, episode):
        """One episode, as far as the calls allow. Gives whether to go on."""
        task = self.task
        rng = random.Random("%d %s %d %d" % (task.seed, task.group, task.height, episode))
        steps = cases.GROUPS[task.group](rng, task.height, episode)
        outcome = None
        for n in range(task.calls - self.calls):
            try:
                lent = steps.send(outcome)
            except StopIteration:
                return True
            outcome, what = difference(driver, lent)
            self.calls += 1
            if what:
                self.differences.append("seed %d group %s height %d episode %d call %d: %s: %s" % (
                    task.seed, task.group, task.height, episode, n, told(lent), what))
                return False
            self.reached[lent.call, lent.profile, outcome[0]] += 1
        return True

    def work(self):
        driver = wire.Driver(self.task.program)
        for episode in self.task.episodes:
            if os.path.exists(enough(self.task.program)) or not self.play(driver, episode) or self.calls >= self.task.calls:
                break
        if driver.close() != 0 and not self.differences:
            self.differences.append("the driver failed")
        return self


def work(task):
    """For the pool."""
    return Cell(task).work()


def enough(program):
    """A file beside the driver: where it is, cells that are still under way end early."""
    return program + ".enough"


def tasks(args, program):
    """The groups that are worked whole; then the calls evenly over the others and the heights, the slow heights first."""
    if args.again:
        group, height, episode = args.again.split(":")
        return [Task(group, int(height), ENDLESS, args.seed, program, [int(episode)])]
    pairs = [(group, height) for height in sorted(args.heights, reverse=True) for group in args.groups]
    whole = [Task(*pair, ENDLESS, args.seed, program, range(cases.WHOLE[pair[0]](pair[1]))) for pair in pairs if pair[0] in cases.WHOLE]
    pairs = [pair for pair in pairs if pair[0] not in cases.WHOLE]
    shares = [args.count // len(pairs) + (n < args.count % len(pairs)) for n in range(len(pairs))]
    return whole + [Task(*pair, calls, args.seed, program, range(ENDLESS)) for pair, calls in zip(pairs, shares) if calls]


def worked(args):
    """The cells, worked two at a time; with --first, as far as the first difference. Those under way then are told so and end by
    themselves: a process that is killed may hold a lock that the others wait for."""
    with tempfile.TemporaryDirectory() as folder, concurrent.futures.ProcessPoolExecutor(2) as pool:
        program, done = wire.build(folder), []
        for cell in pool.map(work, tasks(args, program)):
            done.append(cell)
            if args.first and cell.differences:
                open(enough(program), "w").close()
                pool.shutdown(cancel_futures=True)
                break
        return done


def never(reached):
    """What should have been returned, and was not: each number of each call, by any of some profiles."""
    asked = []
    for call, numbers in cases.REACHED.items():
        for number in numbers:
            either = [model.PROFILES] if call in cases.SELDOM else [(profile,) for profile in model.PROFILES]
            asked += [(call, some, number) for some in ([model.UNKNOWN] if number == 15 else either)]
    return [(call, some, number) for call, some, number in asked if not any(reached[call, profile, number] for profile in some)]


def returned(reached, call, profile):
    """How often a call by this profile returned each number."""
    counts = sorted((number, n) for (name, named, number), n in reached.items() if name == call and named == profile)
    return ", ".join("%d: %d" % pair for pair in counts)


def report(cells, groups, heights):
    """Calls by group and height, and how often each call returned each number. Gives what was never returned."""
    calls = collections.Counter()
    reached = collections.Counter()
    for cell in cells:
        calls[cell.task.group, cell.task.height] += cell.calls
        reached += cell.reached
    print("calls by group, at heights", *heights)
    for group in groups:
        print("  %-10s" % group, *["%6d" % calls[group, height] for height in heights])
    print("  %-10s" % "all", *["%6d" % sum(calls[group, height] for group in groups) for height in heights])
    print("numbers returned:")
    for call in wire.ASKED:
        for profile in model.PROFILES:
            print("  %-10s profile %d " % (call, profile), returned(reached, call, profile))
    print("  by %d profiles that there are not: %d" % (
        len(model.UNKNOWN), sum(n for (_, profile, number), n in reached.items() if profile not in model.PROFILES)))
    return never(reached)


def arguments(args):
    parser = argparse.ArgumentParser()
    parser.add_argument("--groups", type=lambda text: text.split(","), default=list(cases.GROUPS))
    parser.add_argument("--heights", type=lambda text: [int(part) for part in text.split(",")], default=[1, 2, 3, 4, 5, 6])
    parser.add_argument("--first", action="store_true")
    parser.add_argument("--again")
    parser.add_argument("count", type=int, nargs="?", default=10000)
    parser.add_argument("seed", type=int, nargs="?", default=1)
    return parser.parse_args(args)


def main(args):
    args = arguments(args)
    cells = worked(args)
    missed = report(cells, args.groups, args.heights)
    differences = [line for cell in cells for line in cell.differences]
    for line in differences:
        print("DIFFERS", line)
    enough = args.groups == list(cases.GROUPS) and len(cells) > 1 and args.count >= cases.ENOUGH
    if enough and missed:
        print("NEVER RETURNED", missed)
    failed = sum(1 for cell in cells if cell.differences) + bool(enough and missed)
    print("seed %d, %d calls, %d differences" % (args.seed, sum(cell.calls for cell in cells), len(differences)))
    print("%d passed, %d failed" % (len(cells) + enough - failed, failed))
    return 1 if failed else 0


if __name__ == "__main__":
    sys.exit(main(sys.argv[1:]))
