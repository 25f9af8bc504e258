"""What a run of the program takes, for the scripts beside this file."""
import os, subprocess, sys, time

HERE = os.path.dirname(os.path.abspath(__file__))


def program():
    """The program to measure: the first word of the command line, or the one that `rt run` built."""
    return os.path.abspath(sys.argv[1] if len(sys.argv) > 1 else os.path.join(HERE, "../crates/rt_command/out/rt_command"))


def run(words, output=os.devnull):
    """Seconds, the greatest resident size in MiB, and the exit status of one run that writes to the file `output`."""
    with open(output, "wb") as out:
        begin = time.monotonic()
        child = subprocess.Popen(words, stdout=out, stderr=subprocess.DEVNULL)
        _, status, usage = os.wait4(child.pid, 0)
        return time.monotonic() - begin, usage.ru_maxrss / 1024, os.waitstatus_to_exitcode(status)


def best(words, runs=3, output=os.devnull):
    """The shortest time, the greatest size and the status of several runs."""
    taken = [run(words, output) for _ in range(runs)]
    return min(r[0] for r in taken), max(r[1] for r in taken), taken[0][2]


def make(script, *words):
    """Runs a generator of this folder."""
    subprocess.run([sys.executable, os.path.join(HERE, script), *words], check=True, stdout=subprocess.DEVNULL)
