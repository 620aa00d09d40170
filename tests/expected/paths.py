#!/usr/bin/env python3
"""What test_paths must print: crates/test_paths/stdout.

Made from the specification alone and not from the code under test. The code goes forward by layers of words, back through them with what leads on, and
forward again for the path; this goes forward once, over Python sets, with the smallest path to each state in hand.
"""

from keep import TOP, keep

WORDS, GREATEST_G, HEAD_SETS = 8, 64, 3
GREATEST_N = PATH_PLACES = 64 * WORDS
STORE_WORDS = WORDS * (HEAD_SETS + GREATEST_G + GREATEST_N)
LINES = []


def forbidden_states(n, table):
    """The marked ones, and those of the n that no step leaves and that do not rest."""
    _, marked, _, steps, resting = table
    left = {a for a, _ in steps}
    return marked | {s for s in range(n) if s not in left and s not in resting}


def shortest(initial, forbidden, steps):
    """The smallest of the shortest paths, or None. Layer by layer: the smallest path to each state that no earlier layer has."""
    layer = {s: [s] for s in initial}
    seen = set(layer)
    while layer:
        ends = [path for s, path in layer.items() if s in forbidden]
        if ends:
            return min(ends)
        following = {}
        for s, path in layer.items():
            for a, b in steps:
                if a == s and b not in seen:
                    following[b] = min(following.get(b, path + [b]), path + [b])
        seen |= set(following)
        layer = following
    return None


def refusal(words, n, g, table, room):
    """The grounds by number, those of shortest path."""
    if words < STORE_WORDS:
        return 10
    if n == 0 and g > 0 or n > GREATEST_N:
        return 14
    if g > GREATEST_G:
        return 15
    initial, marked, groups, steps, resting = table
    states = initial | marked | resting | {s for group in groups for s in group} | {s for step in steps for s in step}
    if any(s >= n for s in states) or any(group for group in groups[g:]):
        return 17
    if room < PATH_PLACES:
        return 21
    return 0


def report(name, n, g, table, room=PATH_PLACES, words=STORE_WORDS):
    initial, _, _, steps, _ = table
    declined = refusal(words, n, g, table, room)
    path = None if declined else shortest(initial, forbidden_states(n, table), steps)
    if declined:
        answer = f"refused {declined}"
    elif path is None:
        answer = "none"
    else:
        answer = f"steps {len(path) - 1}, path {' '.join(map(str, path))}"
    LINES.append(f"{name}: {answer}, rest untouched\n")


def distance(forbidden, steps, s):
    """Steps from s to the nearest forbidden state, or 65,535: the shortest path with s as the only initial state."""
    path = shortest({s}, forbidden, steps)
    return 65535 if path is None else len(path) - 1


def measure(name, n, g, table, room=7, words=STORE_WORDS):
    """Distances, whose buffer of `room` places held 777 in each, and within for some numbers of steps."""
    initial, _, _, steps, _ = table
    declined = refusal(words, n, g, table, PATH_PLACES)
    forbidden = forbidden_states(n, table)
    places, line = [777] * room, f"{name}: "
    if declined or room < n:
        line += f"refused {declined or 23}"
    else:
        places[:n] = [distance(forbidden, steps, s) for s in range(n)]
        line += "distances"
    line += ", buffer" + "".join(f" {place}" for place in places)
    for k in 0, 1, 3, 65535:
        path = None if declined else shortest(initial, forbidden, steps)
        yes = "yes" if path is not None and len(path) - 1 <= k else "no"
        line += f", within {k} " + (f"refused {declined}" if declined else yes)
    LINES.append(line + "\n")


def chain(*states):
    return {(a, b) for a, b in zip(states, states[1:])}


def sets(initial, marked, groups, steps, resting=frozenset()):
    return initial, marked, groups, steps, resting


A = sets({0}, {2}, [], {(0, 1), (1, 0), (2, 2)})
B_STEPS = chain(0, 1, 2, 3) | {(4, 4)}
B = sets({0}, {3}, [], B_STEPS)
D = sets({0}, {3}, [{0}, {1}, {2}], B_STEPS)
F = sets({0}, {0}, [], set())
DEAD_ENDS = chain(0, 1, 2) | {(1, 3), (1, 4)}
CORRIDOR = sets({0}, set(), [], chain(*range(GREATEST_N)))

report("A", 3, 0, A)
report("B", 5, 0, B)
report("D", 5, 3, D)
report("F", 1, 0, F)
report("no initial state", 2, 0, sets(set(), {1}, [], {(0, 1)}))
report("no forbidden state", 2, 0, sets({0}, set(), [], {(0, 1), (1, 0)}))
report("two first states", 5, 0, sets({0, 1, 2}, {4}, [], chain(0, 3, 4) | {(1, 4), (2, 4)}))
report("two middle states", 5, 0, sets({0}, {4}, [], {(0, 1), (0, 2), (0, 3), (1, 0), (2, 4), (3, 4)}))
report("two last states", 5, 0, sets({0}, {3, 4}, [], DEAD_ENDS | {(2, 2)}))
report("initial and forbidden", 3, 0, sets({0, 2}, {2}, [], {(0, 2)}))
report("three dead ends", 5, 0, sets({0}, {4}, [], DEAD_ENDS))
report("three dead ends, 2 resting", 5, 0, sets({0}, {4}, [], DEAD_ENDS, {2}))
report("three dead ends, all resting", 5, 0, sets({0}, {4}, [], DEAD_ENDS, {2, 3, 4}))
report("three dead ends, all states resting", 5, 0, sets({0}, {4}, [], DEAD_ENDS, {0, 1, 2, 3, 4}))
report("B, 3 not marked", 5, 0, sets({0}, set(), [], B_STEPS))
report("B, 3 not marked but resting", 5, 0, sets({0}, set(), [], B_STEPS, {3}))
report("corridor", GREATEST_N, 0, CORRIDOR)
report("corridor, long buffer", GREATEST_N, GREATEST_G, CORRIDOR, room=PATH_PLACES + 44)
report("corridor, short buffer", GREATEST_N, 0, CORRIDOR, room=PATH_PLACES - 1)
report("corridor, the last state resting", GREATEST_N, 0, sets({0}, set(), [], CORRIDOR[3], {GREATEST_N - 1}))
report("B, long buffer", 5, 0, B, room=PATH_PLACES + 44)
report("B, short buffer", 5, 0, B, room=PATH_PLACES - 1)
report("B, n 0", 0, 0, B)
report("B, n 0, g 1", 0, 1, B)
report("B, n too great", GREATEST_N + 1, 0, B)
report("B, n 4", 4, 0, B)
report("B, g at its greatest", 5, GREATEST_G, B)
report("B, g too great", 5, GREATEST_G + 1, B)
report("B, n and g too great, short buffer", GREATEST_N + 1, GREATEST_G + 1, B, room=PATH_PLACES - 1)
report("B, n 4, short buffer", 4, 0, B, room=PATH_PLACES - 1)
report("store one word short, n 0", 0, 0, sets(set(), set(), [], set()), room=PATH_PLACES - 1, words=STORE_WORDS - 1)
report("D, g 2", 5, 2, D)
report("B, the last state initial", 5, 0, sets({0, GREATEST_N - 1}, {3}, [], B_STEPS))
report("B, 5 resting", 5, 0, sets({0}, {3}, [], B_STEPS, {5}))
report("B, 2 to 5", 5, 0, sets({0}, {3}, [], B_STEPS | {(2, 5)}))

measure("A", 3, 0, A)
measure("B", 5, 0, B)
measure("F", 1, 0, F)
measure("no initial state", 2, 0, sets(set(), {1}, [], {(0, 1)}))
measure("no forbidden state", 2, 0, sets({0}, set(), [], {(0, 1), (1, 0)}))
measure("a short and a long way", 7, 0, sets({0, 6}, {5}, [], chain(0, 1, 2, 3, 4, 5) | {(6, 2), (2, 5)}))
measure("B, 3 not marked, n 6", 6, 0, sets({0}, set(), [], B_STEPS))
measure("B, 3 not marked, n 6, 5 resting", 6, 0, sets({0}, set(), [], B_STEPS, {5}))
measure("B, 3 not marked, 5 resting", 5, 0, sets({0}, set(), [], B_STEPS, {5}))
measure("B, 3 not marked, n 6, 3 5 resting", 6, 0, sets({0}, set(), [], B_STEPS, {3, 5}))
measure("B, 0 3 4 resting", 5, 0, sets({0}, {3}, [], B_STEPS, {0, 3, 4}))
measure("B, 5 places", 5, 0, B, room=5)
measure("B, n 6, 5 places", 6, 0, B, room=5)
measure("B, n 4, 3 groups, 5 places", 4, 3, B, room=5)
measure("B, n 0", 0, 0, B, room=5)
measure("B, n and g too great", GREATEST_N + 1, GREATEST_G + 1, B, room=5)
measure("B, n 6, g too great", 6, GREATEST_G + 1, B, room=5)
measure("store one word short, n 0", 0, 0, sets(set(), set(), [], set()), room=5, words=STORE_WORDS - 1)

keep({TOP / "crates" / "test_paths" / "stdout": "".join(LINES).encode()})
