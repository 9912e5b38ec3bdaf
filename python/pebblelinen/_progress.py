# SPDX-FileCopyrightText: 2026 The PPVM Authors
# SPDX-License-Identifier: Apache-2.0
"""A line on standard error that says what is being done, for work that takes over a second."""
import sys
import threading
import time
from collections.abc import Callable, Iterator
from contextlib import contextmanager


@contextmanager
def working(what: str) -> Iterator[None]:
    """Says so after a second, and from then on each second on a terminal, each ten in a file."""
    done = threading.Event()
    thread = threading.Thread(target=_tell, args=(what, done, time.monotonic()), daemon=True)
    thread.start()
    try:
        yield
    finally:
        done.set()
        thread.join()


def _tell(what: str, done: threading.Event, start: float) -> None:
    terminal = sys.stderr.isatty()
    told = False
    while not done.wait(1 if terminal or not told else 10):
        seconds = time.monotonic() - start
        line = f"pebblelinen: {what}, {seconds:.0f} s"
        print(f"\r{line}" if terminal else line, end="" if terminal else "\n", file=sys.stderr, flush=True)
        told = True
    if told and terminal:
        print("\r\033[K", end="", file=sys.stderr, flush=True)


@contextmanager
def bar(what: str, done: int, steps: int, show: bool) -> Iterator[Callable[[int, int], None]]:
    """Says after a second how many of some steps are done, on a terminal alone: by tqdm where that is installed, else in a
    line. What it gives is told the steps that are done, and the words held."""
    if not show or not sys.stderr.isatty():
        yield lambda done, words: None
        return
    try:
        from tqdm import tqdm
    except ImportError:
        with _line(what, steps) as tell:
            yield tell
        return
    with tqdm(desc=what, initial=done, total=steps, unit="step", delay=1, leave=False, file=sys.stderr) as shown:

        def tell(done: int, words: int) -> None:
            shown.set_postfix_str(f"{words} words", refresh=False)
            shown.update(done - shown.n)

        yield tell


@contextmanager
def _line(what: str, steps: int) -> Iterator[Callable[[int, int], None]]:
    start = last = time.monotonic()

    def tell(done: int, words: int) -> None:
        nonlocal last
        now = time.monotonic()
        if now - last >= 1:
            last = now
            line = f"pebblelinen: {what}, step {done} of {steps}, {words} words, {now - start:.0f} s"
            print(f"\r\033[K{line}", end="", file=sys.stderr, flush=True)

    try:
        yield tell
    finally:
        if last > start:
            print("\r\033[K", end="", file=sys.stderr, flush=True)
