"""Times daemons over their sockets."""
import os
import random
import socket
import subprocess
import time

import bench_inputs as inputs
from bench_measures import most_memory, with_fixed_addresses, write
from bench_tables import cell, heading

# a connection has room for 448 steps
A_CONNECTION = 440
# so many rounds are made, of which the fastest counts: of full connections, connections of one line, and runs of send
ROUNDS = 25
CONNECTIONS = 40
ALONE = 1_000
SENT = 40


class Daemon:
    """A daemon of a program, on a socket of its own."""

    def __init__(self, program, number):
        self.program, self.path = program, os.path.abspath(f"socket{number}")
        words = [program, "serve", "plain", self.path]
        streams = {"stdout": subprocess.PIPE, "stderr": subprocess.DEVNULL}
        self.process = with_fixed_addresses(lambda: subprocess.Popen(words, **streams))
        self.process.stdout.readline()

    def exchanged(self, given):
        """What comes back on one connection for these bytes."""
        parts = []
        with socket.socket(socket.AF_UNIX) as client:
            client.connect(self.path)
            client.sendall(given)
            client.shutdown(socket.SHUT_WR)
            while part := client.recv(65_536):
                parts.append(part)
        return b"".join(parts)

    def sent(self, line):
        words = [self.program, "send", self.path, line.decode().strip()]
        return subprocess.run(words, capture_output=True).stdout

    def stop(self):
        self.exchanged(b"stop\n")
        self.process.wait()


def requests(count):
    """Links that change a fact each."""
    return [f"link carp0 {('up', 'down')[number % 2]}\n".encode() for number in range(count)]


def round_of(exchange, parts):
    """The seconds in which these parts were exchanged one after the other, and how many requests were answered."""
    start = time.perf_counter()
    done = sum(exchange(part).count(b"done") for part in parts)
    return time.perf_counter() - start, done


def turn(exchanges, parts):
    """A round of each daemon, in an order made by chance, since the first one is often slower."""
    order = random.sample(range(len(exchanges)), len(exchanges))
    made = {number: round_of(exchanges[number], parts) for number in order}
    return [made[number] for number in range(len(exchanges))]


def timed(what, exchanges, parts):
    """A line of the table: how long a request took in the fastest round of each daemon, and whether all were
    answered."""
    count = sum(part.count(b"\n") for part in parts)
    rounds = [turn(exchanges, parts) for _ in range(ROUNDS)]
    least = [min(seconds for seconds, _ in each) for each in zip(*rounds)]
    done = min(done for each in rounds for _, done in each)
    told = "" if done == count else f"  NOT ALL ANSWERED: {done:,} of {count:,}"
    rates, times = [count / seconds for seconds in least], [seconds * 1e6 / count for seconds in least]
    print(f"{what:<56}{cell(rates, 9)}{cell(times, 13, 1)}{told}", flush=True)


def times(programs):
    """The table of requests over a socket."""
    print(f"\n{'requests over a socket':<56}{heading('a second', 9, programs)}{heading('microseconds', 13, programs)}")
    write("plain", inputs.image([[inputs.op(inputs.RET)]], [inputs.state("a", 0, 0)]))
    daemons = [Daemon(program, number) for number, program in enumerate(programs)]
    exchanges, sends = [daemon.exchanged for daemon in daemons], [daemon.sent for daemon in daemons]
    timed(f"{A_CONNECTION} a connection", exchanges, [b"".join(requests(A_CONNECTION))] * CONNECTIONS)
    timed("one connection each", exchanges, requests(ALONE))
    timed("one run of send each", sends, requests(SENT))
    taken = [most_memory(daemon.process.pid) for daemon in daemons]
    print(f"{'the most memory of the daemon, in kB':<56}{cell(taken, 9)}")
    for daemon in daemons:
        daemon.stop()
