"""Programs that a script starts, and that end with it.

Each is in a process group of its own, with all that it starts. A script that is terminated, interrupted or hung up ends these groups, and
so does one that ends by an error.
"""
import concurrent.futures
import os
import signal
import subprocess
import threading

SIGNALS = (signal.SIGTERM, signal.SIGINT, signal.SIGHUP)


class Interrupted(SystemExit):
    """The script is to end. Where nothing catches this, its status says by which signal."""


def end_on_signals():
    """Lets signals that are not ignored raise Interrupted. What is done then is not interrupted again."""
    def interrupt(number, _):
        for it in SIGNALS:
            signal.signal(it, signal.SIG_IGN)
        raise Interrupted(128 + number)

    for it in SIGNALS:
        if signal.getsignal(it) is not signal.SIG_IGN:
            signal.signal(it, interrupt)


class Children:
    """The programs that run. Where a `with` of them is left, all end, and none is started any more."""

    def __init__(self):
        self.running = set()
        self.ended = False
        self.lock = threading.Lock()

    def __enter__(self):
        return self

    def __exit__(self, *_):
        with self.lock:
            self.ended = True
            for it in self.running:
                end(it)
            self.running.clear()

    def start(self, words, **how):
        """Starts a program with nothing to read."""
        # (in a thread: a signal interrupts the main one alone, and so none comes between the start and the note of it)
        with concurrent.futures.ThreadPoolExecutor(1) as thread:
            return thread.submit(self.begin, words, how).result()

    def begin(self, words, how):
        with self.lock:
            if self.ended:
                raise Interrupted(1)
            it = subprocess.Popen(words, stdin=subprocess.DEVNULL, start_new_session=True, **how)
            self.running.add(it)
        return it

    def wait_for(self, it):
        """Waits for a program, and answers what it printed, if that is piped."""
        printed = it.communicate()[0]
        with self.lock:
            self.running.discard(it)
        return printed


def end(running):
    """Ends a program and its group."""
    try:
        os.killpg(running.pid, signal.SIGKILL)
    except ProcessLookupError:
        pass
    running.wait()


def remove(folder):
    """Removes a folder. What was ended just now may still write into it: a few tries, which go on by themselves where they take long."""
    tries = 'for it in 1 2 3 4 5; do rm -rf "$1" && exit; sleep 0.2; done'
    how = {"stdin": subprocess.DEVNULL, "stdout": subprocess.DEVNULL, "stderr": subprocess.DEVNULL}
    removing = subprocess.Popen(["sh", "-c", tries, "", folder], start_new_session=True, **how)
    try:
        removing.wait(5)
    except subprocess.TimeoutExpired:
        pass
