"""A live view of a query: bars that narrow in the terminal, and keys to stop, pause, step, and go on with another policy."""
from __future__ import annotations

import os
import queue
import select
import shutil
import sys
import termios
import threading
import tty
from contextlib import closing, contextmanager
from typing import Callable, Iterator, Optional, Union

from .bars import Chart
from .report import Block
from .result import Result, end_text
from .table import POLICIES, Asked

HELP = "q stops, space pauses, s steps, p takes the next policy"
# How long a key may wait until it is looked at.
SECONDS = 0.05


# Gives the key that was pressed, after so many seconds at most, or nothing.
Key = Callable[[float], str]


class Screen:
    """Where blocks are drawn: in a terminal each takes the place of the one before."""

    def __init__(self) -> None:
        self.is_terminal = sys.stdout.isatty() and os.environ.get("TERM", "dumb") != "dumb"
        self._drawn = 0

    def draw(self, lines_of: Callable[[int, Optional[int]], list[str]], foot: str = "") -> None:
        if not self.is_terminal:
            print("\n".join(lines_of(100, None)), flush=True)
            return
        width, height = shutil.get_terminal_size()
        lines = lines_of(width - 1, height - 3) + ([foot[: width - 1]] if foot else [])
        back = "\x1b[%dA" % self._drawn if self._drawn else ""
        sys.stdout.write(back + "".join("\x1b[2K%s\n" % line for line in lines) + "\x1b[J")
        sys.stdout.flush()
        self._drawn = len(lines)


class Feed:
    """The blocks of a query, read by a thread of its own: one is read ahead, then the program waits."""

    def __init__(self, question: Asked) -> None:
        self._question = question
        self._blocks: queue.Queue[Union[Block, BaseException, None]] = queue.Queue(1)
        self._is_stopped = False
        self._thread = threading.Thread(target=self._read, daemon=True)
        self._thread.start()

    def _read(self) -> None:
        try:
            with closing(iter(self._question)) as blocks:
                for block in blocks:
                    self._put(block)
                    if self._is_stopped:
                        return
            self._put(None)
        except BaseException as error:
            # It is raised again where the next block is taken.
            self._put(error)

    def _put(self, told: Union[Block, BaseException, None]) -> None:
        while not self._is_stopped:
            try:
                return self._blocks.put(told, timeout=SECONDS)
            except queue.Full:
                continue

    def take(self) -> Union[Block, None, bool]:
        """The next block, None behind the last, and False where it is not there yet."""
        try:
            told = self._blocks.get(timeout=SECONDS)
        except queue.Empty:
            return False
        if isinstance(told, BaseException):
            raise told
        return told

    def stop(self) -> None:
        self._is_stopped = True
        self._question.stop()
        self._thread.join()


class Watch:
    """What is drawn of a query, and what keys ask for."""

    def __init__(self, question: Asked, paused: bool, key: Optional[Key]) -> None:
        self._question, self._key = question, key
        self._chart, self._screen = Chart(question.table.columns), Screen()
        self._paused, self._steps = paused and key is not None, 1
        self._last: Optional[Block] = None
        self._feed = Feed(question)

    def run(self) -> str:
        """Draws until the end, or until it is stopped, and says which."""
        try:
            while True:
                waits = self._paused and not self._steps
                pressed = self._key(SECONDS if waits else 0) if self._key else ""
                if pressed == "q":
                    return "stopped"
                if pressed:
                    self._obey(pressed)
                if waits:
                    continue
                told = self._feed.take()
                if told is None:
                    return self._end()
                if told:
                    self._last = told
                    self._steps = max(self._steps - 1, 0)
                    self._draw()
        except KeyboardInterrupt:
            return "stopped"
        finally:
            self._feed.stop()
            if self._key:
                self._draw(are_keys_shown=False)

    def _end(self) -> str:
        return end_text(Result(self._last.query, [self._last], self._question.end)) if self._last else ""

    def _obey(self, pressed: str) -> None:
        if pressed == " ":
            self._paused = not self._paused
        elif pressed in ("s", "\n"):
            self._steps = self._steps + 1 if self._paused else 1
            self._paused = True
        elif pressed == "p":
            self._feed.stop()
            self._question = self._question.by_policy(next_policy(self._question.policy))
            self._feed, self._steps = Feed(self._question), 1
        self._draw()

    def _draw(self, are_keys_shown: bool = True) -> None:
        if self._last is None:
            return
        state = "paused" if self._paused else "running"
        foot = "%s, policy %s: %s" % (state, self._question.policy, HELP) if self._key and are_keys_shown else ""
        last = self._last
        self._screen.draw(lambda width, height: self._chart.lines(last, width, height), foot)


def next_policy(policy: str) -> str:
    """The policy behind this one, and the first behind the last and behind a list of reads."""
    return POLICIES[(POLICIES.index(policy) + 1) % len(POLICIES)] if policy in POLICIES else POLICIES[0]


def watch(question: Asked, paused: bool) -> None:
    """Draws each block over the one before in a terminal, and below it elsewhere. Control-C stops it as the key q does."""
    with keys() as key:
        told = Watch(question, paused, key).run()
    if told:
        print(told)


@contextmanager
def keys() -> Iterator[Optional[Key]]:
    """The keys of the terminal; None where there is no terminal for keys and bars."""
    if not sys.stdin.isatty() or not Screen().is_terminal:
        yield None
        return
    kept = termios.tcgetattr(sys.stdin)
    try:
        tty.setcbreak(sys.stdin)
        yield lambda seconds: os.read(sys.stdin.fileno(), 1).decode("latin-1") if select.select([sys.stdin], [], [], seconds)[0] else ""
    finally:
        termios.tcsetattr(sys.stdin, termios.TCSADRAIN, kept)
