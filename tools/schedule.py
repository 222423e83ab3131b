"""The order in which crates are proved side by side, and with how many jobs each, by the seconds that they take.

A simulation of the whole run is tried with other numbers of jobs while that makes it shorter. A crate that starts while processors
are idle gets those too, so one that is proved alone gets all of them.
"""

# the part of its time at one job that a proof takes with so many, if each has a processor
PARTS = {1: 1.0, 2: 0.66, 3: 0.54, 4: 0.48}


def all_below(name, below):
    """The crates that a crate uses, through others too."""
    return {name for it in below[name] for name in (it, *all_below(it, below))}


class Schedule:
    """Which crates there are, what each uses, its seconds at one job, and how many jobs it gets."""

    def __init__(self, below, seconds, processors):
        self.below, self.seconds, self.processors = below, seconds, processors
        self.jobs = dict.fromkeys(below, 1)
        self.above = {name: [it for it in below if name in below[it]] for name in below}
        self.improve()

    def time_of(self, name, jobs):
        """The seconds of a crate with so many jobs, if each has a processor."""
        return self.seconds[name] * PARTS[min(jobs, max(PARTS))]

    def order(self):
        """The crates, those with the longest chain of crates above them first."""
        chains = {}

        def chain_of(name):
            if name not in chains:
                chains[name] = self.time_of(name, self.jobs[name]) + max(map(chain_of, self.above[name]), default=0)
            return chains[name]

        return sorted(self.below, key=lambda it: -chain_of(it))

    def starts(self, waiting, proved, running):
        """The crates that start now, in order, each with its jobs. `running` has the jobs of each crate that is being proved."""
        ready = [it for it in waiting if set(self.below[it]) <= proved][:max(0, self.processors - len(running))]
        jobs = {it: self.jobs[it] for it in ready}
        idle = self.processors - sum(running.values()) - sum(jobs.values())
        if ready and idle > 0:
            jobs[ready[0]] += idle
        return jobs

    def whole(self):
        """The seconds of a simulated run. Where more jobs run than there are processors, each takes longer."""
        now, proved, waiting, jobs, left = 0.0, set(), self.order(), {}, {}
        while waiting or left:
            for name, given in self.starts(waiting, proved, jobs).items():
                waiting.remove(name)
                jobs[name], left[name] = given, self.time_of(name, given)
            crowd = max(1.0, sum(jobs.values()) / self.processors)
            first = min(left, key=left.get)
            took = left[first]
            now += took * crowd
            left = {name: seconds - took for name, seconds in left.items()}
            proved |= {first}
            del left[first], jobs[first]
        return now

    def improve(self):
        """Changes numbers of jobs one by one, as long as that makes the run shorter."""
        best, is_better = self.whole(), True
        while is_better:
            is_better = False
            for name in self.below:
                for jobs in range(1, min(self.processors, max(PARTS)) + 1):
                    old, self.jobs[name] = self.jobs[name], jobs
                    tried = self.whole()
                    if tried < best - 0.5:
                        best, is_better = tried, True
                    else:
                        self.jobs[name] = old
