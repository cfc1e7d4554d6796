"""The crates of the repository, and work on them side by side: a crate's begins when that of all below it has ended."""

import os
import re
import subprocess
import threading

TOP = os.path.dirname(os.path.dirname(os.path.abspath(__file__)))
CHECKED = re.compile(r"checked (\S+), \d+ of \d+")


def read_crates(path=f"{TOP}/crates.txt"):
    """Each crate of the file with the libraries that it stands on, in the order of the file."""
    found = {}
    with open(path, encoding="utf-8") as file:
        for line in file:
            name, colon, below = line.split("#")[0].partition(":")
            if colon:
                found[name.split()[0]] = below.split()
    return found


def with_all_below(crates, names):
    """These crates and all that they stand on, in the order of the file."""
    wanted, queue = set(), list(names)
    while queue:
        name = queue.pop()
        if name in crates and name not in wanted:
            wanted.add(name)
            queue += crates[name]
    return [name for name in crates if name in wanted]


def work_side_by_side(crates, names, most, work):
    """Calls work(name) for each name, at most so many at a time, and stops beginning new ones once a call is false.
    Answers whether all were true."""
    done, left, failed, busy = set(), list(names), [], [0]
    changed = threading.Condition()

    def one(name):
        is_well = work(name)
        with changed:
            busy[0] -= 1
            (done.add if is_well else failed.append)(name)
            changed.notify_all()

    with changed:
        while left and not failed:
            ready = [it for it in left if all(below in done for below in crates[it] if below in names)]
            if ready and busy[0] < most:
                left.remove(ready[0])
                busy[0] += 1
                threading.Thread(target=one, args=(ready[0],), daemon=True).start()
            else:
                changed.wait()
        while busy[0]:
            changed.wait()
    return not failed


def check(folder, on_line):
    """Proves the crate of a folder with one job, and hands each line to on_line(process, line). Answers the exit status and
    the processor seconds."""
    words = ["rt", "check", "--jobs", "1"]
    process = subprocess.Popen(words, cwd=folder, stdout=subprocess.PIPE, stderr=subprocess.STDOUT, stdin=subprocess.DEVNULL, text=True)
    for line in process.stdout:
        on_line(process, line)
    _, status, used = os.wait4(process.pid, 0)
    process.returncode = status
    return status, used.ru_utime + used.ru_stime
