"""How the cost of the words on files grows up to the limits, and that of a step with states and with tests: tables of
markdown."""
import os

import bench_inputs as inputs
import bench_measures as measures
import bench_works as works
from bench_measures import write
from bench_tables import ratio

# a unit that costs over so many times what it cost at an earlier size is told
MOST_GROWTH = 1.3
# the numbers of states of inputs to which all else is in proportion
PARTS = {"1/16": 16, "1/4": 64, "all": inputs.MOST_STATES}
INPUTS = {"check": inputs.policy_in_proportion, "compile": inputs.policy_in_proportion,
          "verify": inputs.image_in_proportion, "asm": inputs.assembly_in_proportion,
          "disasm": inputs.image_in_proportion}
# steps of the sessions that are timed, and of those whose instructions are counted
TIMED, COUNTED = 50_000, 5_000
# each step, and of what, with how many, on which image, after which requests, and so many of it
STEPS = (
    ("`link`, no change of state", "state", (1, 16, 256), inputs.staying, lambda _: [], inputs.links),
    ("`link`, a change of state", "state", (2, 16, 256), inputs.moving, lambda _: [], inputs.links),
    ("`link`, idle tests", "test", (1, 64), inputs.waiting, inputs.idle, inputs.links),
    ("`tick`, idle tests", "test", (1, 64), inputs.waiting, inputs.idle, lambda steps: ["tick 1"] * steps),
)


class Size:
    """What is measured at one size: the cells that say which size it is, and of each program the time of a run, and the
    nanoseconds and machine instructions of a unit."""

    def __init__(self, cells, runs, times, counts):
        self.cells, self.runs, self.times, self.counts = cells, runs, times, counts


def line(cells):
    print("| " + " | ".join(cells) + " |", flush=True)


def header(names, paths):
    if len(paths) > 1:
        names = [*names, "Time to the other's", "Instructions to the other's"]
    print()
    line(names)
    line(["---"] * len(names))


def number(value, places=1):
    return "-" if value is None else f"{value:,.{places}f}"


def times_of(size, earlier):
    """How many times the time and the instructions of an earlier size a unit has, by this program."""
    pairs = ((size.times, earlier.times), (size.counts, earlier.counts))
    return [ratio([now[0], then[0]]) for now, then in pairs]


def growth(size, earlier, expected):
    """What is said of the growth of a unit: what is expected of it, or how many times as much it costs."""
    named = zip(("time", "instructions"), times_of(size, earlier))
    grown = [f"{times:.2f} times the {what}" for what, times in named if times is not None and times > MOST_GROWTH]
    return f"not {expected}: {' and '.join(grown)}" if grown else expected


def rows(what, sizes, earlier, expected):
    """The rows of a work with its sizes, of which the last is compared with an earlier one. Whether the instructions of
    a unit do not grow."""
    for size in sizes:
        time, count = times_of(size, sizes[0])
        said = growth(size, earlier, expected) if size is sizes[-1] else ""
        cells = [what, *size.cells, number(size.times[0]), number(time, 2)]
        cells += [number(size.counts[0]), number(count, 2), said]
        if len(size.times) > 1:
            cells += [number(ratio(size.runs), 2), number(ratio(size.counts), 2)]
        line(cells)
    count = times_of(sizes[-1], earlier)[1]
    return count is None or count <= MOST_GROWTH


def parted(answers, paths):
    """What belongs to each task, a list of what belongs to each program."""
    return [answers[place:place + len(paths)] for place in range(0, len(answers), len(paths))]


def runs_of(tasks, paths):
    """All runs of these tasks by these programs."""
    return [task.of(path) for task in tasks for path in paths]


def timed(tasks, paths):
    """The least milliseconds of each task, by each program, which has to answer it right. The runs go by turns."""
    for task in tasks:
        for path in paths:
            task.checked(path)
    return parted(measures.least(runs_of(tasks, paths)), paths)


def counted(tasks, paths):
    """The machine instructions of each task, by each program."""
    return parted([measures.counted(*run) for run in runs_of(tasks, paths)], paths)


def each(more, less, units):
    """What a unit costs, by each program: the difference of two costs divided by so many units."""
    return [None if None in costs else (costs[0] - costs[1]) / units for costs in zip(more, less)]


def file_of(word, states):
    """The name of a file for a word, which is in proportion to so many states."""
    made = INPUTS[word](states)
    return write(f"{word}{states}", made if isinstance(made, bytes) else made.encode())


def word_sizes(word, paths):
    """What a byte costs a word at all sizes. The start of the program is taken off."""
    names = [file_of(word, states) for states in PARTS.values()]
    tasks = [works.start(), *[works.of_file(word, name) for name in names]]
    (start, *runs), (begun, *counts) = timed(tasks, paths), counted(tasks, paths)
    for part, name, run, count in zip(PARTS, names, runs, counts):
        size = os.path.getsize(name)
        times = [milliseconds * 1e6 for milliseconds in each(run, start, size)]
        yield Size([part, f"{size:,}", number(run[0], 2)], run, times, each(count, begun, size))


def words(paths):
    """The table of the words on files. Whether each is linear."""
    units = ["ns a byte", "to 1/16", "Instructions a byte", "to 1/16", "Growth"]
    header(["Word", "Of the limits", "Bytes", "ms", *units], paths)
    good = True
    for word in INPUTS:
        sizes = list(word_sizes(word, paths))
        good &= rows(f"`{word}`", sizes, sizes[-2], "linear")
    return good


def step_sizes(unit, numbers, image, before, steps, paths):
    """What a step costs with so many states or tests. The session of what is before the steps alone is taken off."""
    names = [write(f"{unit}{number}", image(number)) for number in numbers]

    def sessions(count):
        return [works.session(name, [*before(number), *steps(some)]) for name, number in zip(names, numbers)
                for some in (0, count)]

    runs, counts = timed(sessions(TIMED), paths), counted(sessions(COUNTED), paths)
    for number, none, many, less, more in zip(numbers, runs[::2], runs[1::2], counts[::2], counts[1::2]):
        times = [milliseconds * 1e6 for milliseconds in each(many, none, TIMED)]
        with_so_many = f"{number} {unit}{'' if number == 1 else 's'}"
        yield Size([with_so_many], times, times, each(more, less, COUNTED))


def steps(paths):
    """The table of steps. Whether each is flat."""
    header(["Step", "With", "ns a step", "to the first", "Instructions a step", "to the first", "Growth"], paths)
    good = True
    for what, *step in STEPS:
        sizes = list(step_sizes(*step, paths))
        good &= rows(what, sizes, sizes[0], "flat")
    return good


def tables(paths):
    """Both tables. Whether all is linear or flat, by machine instructions."""
    return all([words(paths), steps(paths)])
