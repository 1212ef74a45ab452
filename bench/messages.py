"""Times the works of `bench` (messages, cells, mail, delays, a replay, judging), and those of messages by libprotobuf. Called by bench/run.

Its words: the program `bench`, the number of runs of which the best counts, and the peer program, if there is one."""
import os
import sys
import tempfile

from timed import timed

MOST_RATIO = 11
# Each work with the smaller number of its letters, messages, writes, delays or entries, and the rounds of that number. Ten times the number has
# a tenth of the rounds, so that both runs take about as long, and each round's time is known as well.
WORKS = [("letters", 10000, 20), ("request", 1000, 200), ("answer", 1000, 200), ("cells", 10000, 100), ("mail", 100000, 10), ("mailboxes", 100000, 10), ("delays", 1000, 50), ("replay", 100000, 10)]
# An answer of 4 MiB is judged in the time of its decoding and half of it more, at most.
JUDGED, MOST_JUDGED = ("egresses", "judged", 60000, 20), 1.5
PEER_WORKS = {"request", "answer"}
# Those whose time grows with their number alone. Delays are not among them: a cancellation looks at each that waits.
BOUND_WORKS = {"letters", "cells", "mail", "mailboxes", "replay"}


def line_of(path):
    """The line that a run wrote."""
    with open(path, encoding="utf-8") as written:
        return written.read()


def per_round(programs, work, count, rounds, runs, path):
    """Processor seconds of a round of each program, without the making of the message: the least that a run takes, beyond
    the least of one with no rounds. The programs run in turn, so that a busy moment of the machine meets each."""
    bare, whole, lines = [[] for _ in programs], [[] for _ in programs], set()
    for _ in range(runs):
        for place, program in enumerate(programs):
            bare[place].append(timed(program, [work, str(count), "0"], path)[0])
            whole[place].append(timed(program, [work, str(count), str(rounds)], path)[0])
            lines.add(line_of(path))
    if len(lines) != 1 or not lines.pop().endswith(" same yes\n"):
        sys.exit(f"bench: {work} {count}: the programs did not write one line that ends with 'same yes'")
    return [max(min(whole[place]) - min(bare[place]), 1e-6) / rounds for place in range(len(programs))]


def compared(programs, work, count, rounds, runs, path):
    """Times one work by each program, prints its line, and gives the seconds of a round of each."""
    seconds = per_round(programs, work, count, rounds, runs, path)
    text = f"{work} {count}: {seconds[0] * 1000:.3f} ms of processor time a round, {seconds[0] / count * 1e9:.0f} ns each"
    if len(seconds) > 1:
        text += f"; libprotobuf {seconds[1] * 1000:.3f} ms, our time / its time {seconds[0] / seconds[1]:.2f}"
    print(text, flush=True)
    return seconds


def ratios(work, few, many):
    """Prints how much longer ten times as many take."""
    text = f"{work}: ratio {many[0] / few[0]:.2f} for ten times as many"
    if work in BOUND_WORKS:
        text += f" (at most {MOST_RATIO} is wanted)"
    if len(few) > 1:
        text += f"; libprotobuf {many[1] / few[1]:.2f}"
    print(text, flush=True)


def main():
    runs, programs = int(sys.argv[2]), [os.path.abspath(program) for program in [sys.argv[1], *sys.argv[3:]]]
    with tempfile.TemporaryDirectory(prefix="statefun-bench-") as folder:
        path = os.path.join(folder, "written")
        for work, count, rounds in WORKS:
            timed_ones = programs if work in PEER_WORKS else programs[:1]
            few = compared(timed_ones, work, count, rounds, runs, path)
            many = compared(timed_ones, work, 10 * count, rounds // 10, runs, path)
            ratios(work, few, many)
        decoding, judging, count, rounds = JUDGED
        decoded = compared(programs[:1], decoding, count, rounds, runs, path)[0]
        judged = compared(programs[:1], judging, count, rounds, runs, path)[0]
        print(f"{judging}: {judged / decoded:.2f} of the time of decoding (at most {MOST_JUDGED} is wanted)", flush=True)


main()
