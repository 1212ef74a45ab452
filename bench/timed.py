"""One timed run of a program."""
import os
import sys
import time


def timed(program, words, path):
    """Runs a program, with its standard output into the file at a path. Gives its processor seconds, the seconds that
    passed and its peak memory in MiB. Stops where the program ends with another status than 0."""
    with open(path, "wb") as written:
        began = time.perf_counter()
        child = os.posix_spawn(
            program,
            [program, *words],
            os.environ,
            file_actions=[(os.POSIX_SPAWN_DUP2, written.fileno(), 1)],
        )
        _, status, used = os.wait4(child, 0)
        seconds = time.perf_counter() - began
    if os.waitstatus_to_exitcode(status) != 0:
        sys.exit(f"bench: {program} ended with status {os.waitstatus_to_exitcode(status)}")
    return used.ru_utime + used.ru_stime, seconds, used.ru_maxrss / 1024
