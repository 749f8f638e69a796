"""Says on a terminal at which crate `rt` is and for how long it runs, and nothing if standard error is no terminal."""

import subprocess
import sys
import threading
import time


class Proving:
    """While it is entered it says each second, below all lines, how many of these crates are done. The pattern says which is
    done, by a line of `rt`."""

    def __init__(self, names, pattern):
        self.names, self.pattern, self.done = set(names), pattern, set()
        self.begin, self.printing, self.ended = time.time(), threading.Lock(), threading.Event()
        self.teller = threading.Thread(target=self.tell)

    def __enter__(self):
        if sys.stderr.isatty():
            self.teller.start()
        return self

    def __exit__(self, *_):
        self.ended.set()
        if self.teller.is_alive():
            self.teller.join()
        self.clear()

    def tell(self):
        while not self.ended.wait(1):
            with self.printing:
                self.clear()
                number, minutes = min(len(self.done) + 1, len(self.names)), int(time.time() - self.begin) // 60
                print(f"crate {number} of {len(self.names)}, {minutes} minutes", end="", file=sys.stderr, flush=True)

    def clear(self):
        if sys.stderr.isatty():
            print("\r\033[K", end="", file=sys.stderr, flush=True)

    def take(self, line, shown):
        """Takes a line of `rt`, prints it if it is shown, and returns which crate is done by it, if one is."""
        found = self.pattern.match(line)
        done = {found[1]} & self.names if found else set()
        with self.printing:
            self.done |= done
            if shown:
                self.clear()
                print(line, end="", flush=True)
        return done


def prove(command, names, pattern, shown=False, stdout=None, told=lambda name: None, **how):
    """Runs a command of `rt` that proves these crates: its status and the lines that it says, which are shown or not. If its
    standard output goes elsewhere these are those of standard error. Each crate that is done is told."""
    how |= {"stdout": stdout or subprocess.PIPE, "stderr": None if shown else subprocess.PIPE if stdout else subprocess.STDOUT}
    said = []
    with Proving(names, pattern) as proving, subprocess.Popen(command, errors="replace", **how) as rt:
        for line in rt.stderr or rt.stdout:
            said.append(line)
            for name in proving.take(line, shown):
                told(name)
    return rt.returncode, said
