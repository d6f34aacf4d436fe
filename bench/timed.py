"""What the benchmarks share: the program that they time, and a run of it."""
import os
import re
import subprocess
import sys
import threading
import time


def program():
    """The path of the program: the first word, or the one that ./df1 builds."""
    top = os.path.dirname(os.path.dirname(os.path.abspath(__file__)))
    path = sys.argv[1] if len(sys.argv) > 1 else os.path.join(top, "crates", "df1", "out", "df1")
    if not os.path.exists(path):
        sys.exit(f"{sys.argv[0]}: there is no {path}; ./df1 builds it, as ./df1 replay < examples/one-write.df1")
    return os.path.abspath(path)


def run(path, words, given, written, folder=None, ends=(0,)):
    """Runs the program over a file in a folder, and answers the seconds by the clock and the most KiB that it took. It must
    end with one of these statuses."""
    taken, _, peak = run_used(path, words, given, written, folder, ends)
    return taken, peak


def watch(pid, samples):
    """Adds the most KiB that a process has held so far, each millisecond until it ends. What wait4 tells wouldn't do: a process
    counts there what its parent held as it was made."""
    while True:
        try:
            with open(f"/proc/{pid}/status") as status:
                found = re.search(r"^VmHWM:\s+(\d+)", status.read(), re.MULTILINE)
        except OSError:
            return
        if not found:
            return
        samples.append(int(found[1]))
        time.sleep(0.001)


def run_used(path, words, given, written, folder=None, ends=(0,)):
    """The same, and answers the seconds of a processor too, before the KiB."""
    samples = []
    with open(given, "rb") as source, open(written, "wb") as sink:
        start = time.perf_counter()
        child = subprocess.Popen([path, *words], stdin=source, stdout=sink, cwd=folder)
        watcher = threading.Thread(target=watch, args=(child.pid, samples))
        watcher.start()
        _, status, usage = os.wait4(child.pid, 0)
        taken = time.perf_counter() - start
    watcher.join()
    if os.waitstatus_to_exitcode(status) not in ends:
        sys.exit(f"{sys.argv[0]}: {path} ended with {os.waitstatus_to_exitcode(status)}")
    return taken, usage.ru_utime + usage.ru_stime, samples[-1] if samples else 0
