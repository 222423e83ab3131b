"""What `compile` and `asm` spend on files: their runs in memory and on the disk, and the calls of the system alone by
which a file is written whole or not at all."""
import contextlib
import os
import statistics
import tempfile
import time

import bench_inputs as inputs
import bench_measures as measures
import bench_works as works
from bench_measures import write
from bench_programs import TOP
from bench_tables import cell, heading

SECONDS = 2
RUNS = 25
WIDTH = 14
CALLS = ("write of a new file", "fsync of it", "rename to the image", "fsync of the folder")


def file_system(path):
    """The kind of the file system in which a path lies."""
    found = "", "unknown"
    with open("/proc/self/mounts") as file:
        for entry in file:
            _, place, kind, *_ = entry.split()
            if os.path.commonpath([place, path]) == place and len(place) >= len(found[0]):
                found = place, kind
    return found[1]


def took(call):
    """The milliseconds of a call."""
    start = time.perf_counter()
    call()
    return (time.perf_counter() - start) * 1e3


def calls_alone(data):
    """The milliseconds of each call of the system for these bytes, and of all four."""
    folder = os.open(".", os.O_RDONLY | os.O_DIRECTORY)
    made = os.open("new", os.O_WRONLY | os.O_CREAT | os.O_TRUNC, 0o600)
    times = [
        took(lambda: written(made, data)),
        took(lambda: os.fsync(made)),
        took(lambda: os.rename("new", "image")),
        took(lambda: os.fsync(folder)),
    ]
    os.close(made)
    os.close(folder)
    return [*times, sum(times)]


def written(made, data):
    """Writes all bytes."""
    while data:
        data = data[os.write(made, data):]


def in_folder(folder, call):
    """What a call answers in a folder."""
    os.chdir(folder)
    return call()


def measured(calls, rooms):
    """The answers of each call in each room, as a list for each call of a list for each room. All go by turns."""
    placed = [lambda room=room, call=call: in_folder(room, call) for call in calls for room in rooms]
    answers = measures.by_turns(placed, SECONDS, RUNS)
    return [answers[place:place + len(rooms)] for place in range(0, len(answers), len(rooms))]


def line(what, programs):
    """A line of the table, from the milliseconds of all runs by each program in each room."""
    cells = ""
    for room in zip(*programs):
        for kind in (min, statistics.median):
            cells += cell([kind(times) if times else None for times in room], WIDTH, 2)
    print(f"{what:<56}{cells}", flush=True)


def prepared(rooms, task, word, data, paths):
    """Puts a word's text into each room, and looks at each program's answer there. The bytes of the image."""
    for room in rooms:
        os.chdir(room)
        write(word, data)
        for path in paths:
            task.checked(path)
    with open("image", "rb") as file:
        return file.read()


def table(word, text, paths, rooms):
    """The lines of a word on a text: its runs, and the calls alone for the bytes of its image."""
    task = works.of_file(word, word)
    data = prepared(rooms, task, word, text.encode(), paths)
    runs = [lambda run=task.of(path): measures.once(*run) for path in paths]
    *programs, calls = measured([*runs, lambda: calls_alone(data)], rooms)
    line(f"{word}, an image of {len(data):,} bytes", programs)
    for place, name in enumerate((*CALLS, "all four calls")):
        alone = [[times[place] for times in answers] for answers in calls]
        line(f"  {name}", [alone, *[[[] for _ in rooms] for _ in paths[1:]]])


def folders():
    """The folder in memory, if there is one, and one on the disk, each by what it is called in the table."""
    kept = os.path.join(TOP, "out")
    os.makedirs(kept, exist_ok=True)
    memory = {"memory": "/dev/shm"} if os.path.isdir("/dev/shm") else {}
    return {**memory, "disk": kept}


def tables(paths):
    """The table of both words, in memory and on the disk."""
    for name, folder in folders().items():
        print(f"{name}: {folder}, {file_system(os.path.realpath(folder))}")
    print(f"milliseconds of {RUNS} runs or more; of calls of the system alone for the same bytes\n{'':<56}" + "".join(
        heading(f"{name}, {kind}", WIDTH, paths) for name in folders() for kind in ("least", "median")))
    with contextlib.ExitStack() as stack:
        rooms = [stack.enter_context(tempfile.TemporaryDirectory(dir=folder)) for folder in folders().values()]
        for word, text in (("compile", inputs.full_policy()), ("asm", inputs.assembly())):
            table(word, text, paths, rooms)
        os.chdir("/")
