"""Policies whose conditions are hard to decide, or that have many states, each with whether all questions are to be decided."""
import random

SEED = "hard policies"


def link(number, state="up"):
    return f"e{number}.link.{state}"


def under(condition):
    """A policy with a condition."""
    return f"state a {{ if {condition} set-state b }}\nstate b {{ if {link(0, 'unknown')} set-state a }}\n"


def clauses(variables):
    """A condition of random clauses of three literals each, as many as make it hardest."""
    chance = random.Random(f"{SEED} {variables}")

    def clause():
        literals = [("" if chance.random() < 0.5 else "! ") + link(it) for it in chance.sample(range(variables), 3)]
        return f"( {' || '.join(literals)} )"

    return " && ".join(clause() for _ in range(round(4.26 * variables)))


def pigeons(holes):
    """Each of several pigeons is in a hole, and no two are in one. There is a pigeon more than there are holes."""
    number = [[pigeon * holes + hole for hole in range(holes)] for pigeon in range(holes + 1)]
    each = [f"( {' || '.join(map(link, of_one))} )" for of_one in number]
    none = [f"! ( {link(number[first][hole])} && {link(number[second][hole])} )"
            for hole in range(holes) for second in range(holes + 1) for first in range(second)]
    return " && ".join(each + none)


def pairs(count):
    """One of several pairs of links, and one of each of them."""
    any_pair = " || ".join(f"{link(2 * it)} && {link(2 * it + 1, 'down')}" for it in range(count))
    of_each = " && ".join(f"( {link(2 * it)} || {link(2 * it + 1, 'down')} )" for it in range(count))
    return f"( {any_pair} ) && {of_each}"


def many_tests(count):
    """A state that is left if of each pair of tests one passes or the other one fails."""
    pairs_of = [f'( "t{2 * it}" every 5 || ! "t{2 * it + 1}" every 9 )' for it in range(count // 2)]
    return f"state a {{ if {' && '.join(pairs_of)} set-state b }}\nstate b {{ if \"t0\" every 5 && {link(0)} set-state a }}\n"


def ring(states):
    """States in a ring, with four conditions each."""
    def state(number):
        conditions = (link(number % 60), f"{link((number + 7) % 60, 'down')} && {link(number % 60, 'unknown')}", link(1, "down"),
                      f"{link(2)} || {link(3, 'down')}")
        actions = (f"set-state s{(number + 1) % states}", f'run "x{number}"', 'run "y"', 'run "z"')
        return f"state s{number} {{ {' '.join(f'if {it} {action}' for it, action in zip(conditions, actions))} }}\n"

    return "".join(map(state, range(states)))


def at_random(states, before, each):
    """States and conditions outside of states, and in each state, at random."""
    chance = random.Random(f"{SEED} {states} {before} {each}")

    def action():
        links = [link(chance.randrange(64), chance.choice(("up", "down", "unknown"))) for _ in range(chance.randrange(1, 4))]
        return f"if {chance.choice((' && ', ' || ')).join(links)} set-state s{chance.randrange(states)}\n"

    outside = "".join(action() for _ in range(before))
    return outside + "".join(f"state s{number} {{ {''.join(action() for _ in range(each))} }}\n" for number in range(states))


def hard_policies():
    """The name of each policy, its text, and whether all is decided."""
    return [
        ("ring of 256 states", ring(256), True),
        ("256 states and 1,024 conditions", at_random(256, 0, 4), False),
        ("256 states and 768 conditions outside of them", at_random(256, 768, 0), False),
        *[(f"3-SAT with {count} links", under(clauses(count)), False) for count in (20, 40, 60)],
        *[(f"pigeons in {holes} holes", under(pigeons(holes)), False) for holes in (5, 6, 7)],
        *[(f"{count} pairs", under(pairs(count)), True) for count in (8, 16, 32)],
    ]
