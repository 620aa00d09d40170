"""Sessions and calls in several threads at once give what they give alone.

    threads.py PREFIX
"""
import threading

from support import group, need, same, shuntberry
from shuntberry import Session, Table

STATES, ROUNDS, THREADS = 64, 30, 4


def in_threads(work, count):
    """Runs work(0) to work(count - 1) at once, and gives what each gave."""
    given, began = [None] * count, threading.Barrier(count)

    def run(i):
        began.wait()
        given[i] = work(i)

    running = [threading.Thread(target=run, args=(i,)) for i in range(count)]
    for thread in running:
        thread.start()
    for thread in running:
        thread.join()
    return given


def corridor(states):
    return Table(states, initial=[0], marked=[states - 1], steps={s: [s + 1] for s in range(states - 1)})


# ---- two sessions on one table, each with edits of its own: cut at i, all up to i is reached; mended, all is

shared = corridor(STATES)


def cut_and_mend(thread):
    session, sizes = Session(shared), []
    for i in range(ROUNDS):
        at = (7 * i + thread) % (STATES - 1)
        sizes.append((at, len(session.remove_step(at, at + 1)), len(session.add_step(at, at + 1))))
    return sizes, session.table


for sizes, table in in_threads(cut_and_mend, 2):
    for at, cut, mended in sizes:
        same((cut, mended), (at + 1, STATES), "an edit in a thread", at)
    same(table, shared, "a corridor that was mended")

# ---- one session, edited by all: no edit is lost

empty = Table(STATES, initial=[0], marked=[], steps={})
session = Session(empty)
in_threads(lambda thread: [session.add_step(s, s + 1) for s in range(STATES - 1) if s % THREADS == thread], THREADS)
same(session.table.steps, {s: frozenset([s + 1]) for s in range(STATES - 1)}, "steps of one session")
same(session.reachable, frozenset(range(STATES)), "what one session reaches")

# ---- calls on one table

large = corridor(shuntberry.MAX_STATES)
path = tuple(range(shuntberry.MAX_STATES))
for found in in_threads(lambda _: [(shuntberry.decide(large).path, shuntberry.shortest_path(large), shuntberry.distances(large)[0]) for _ in range(3)], THREADS):
    need(found == [(path, path, shuntberry.MAX_STATES - 1)] * 3, "calls in threads")
group("threads")
