"""Tries changes of the readings, each in a process of its own: there the module of the changed file is made of the changed tree, and every reading
that stands on it uses it. What differs, fails, or does not end in time has been found.
"""
import ast
import gc
import importlib.abc
import importlib.machinery
import importlib.util
import multiprocessing
import os
import resource
import sys
import time
from collections.abc import Callable, Iterator, Sequence
from dataclasses import dataclass
from multiprocessing.connection import Connection, wait
from types import CodeType, ModuleType
from typing import Any, Optional

from planted.changes import Change

PROCESSES = multiprocessing.get_context("fork")
MOST_MEMORY = 3 << 30  # bytes that a reading may take


@dataclass
class Trial:
    """A change of a file, and what found it: nothing where nothing did."""
    file: str
    tree: ast.Module
    change: Change
    found: str = ""
    seconds: float = 0.0

    @property
    def name(self) -> str:
        """The change, by file, line and kind."""
        return f"{self.file}:{self.change.line} {self.change.name}"

    @property
    def key(self) -> str:
        """The same without the line, by which a list may name it."""
        return f"{self.file} {self.change.name}"


class Changed(importlib.abc.MetaPathFinder, importlib.abc.Loader):
    """Gives one module the code of a changed tree."""

    def __init__(self, module: str, path: str, code: CodeType) -> None:
        """The module by its name, its file, and what it is made of."""
        self.module, self.path, self.code = module, path, code

    def find_spec(self, fullname: str, path: object, target: object = None) -> Optional[importlib.machinery.ModuleSpec]:
        """Where the module comes from, if it is this one."""
        return importlib.util.spec_from_loader(fullname, self, origin=self.path) if fullname == self.module else None

    def create_module(self, spec: importlib.machinery.ModuleSpec) -> None:
        """As always."""
        return None

    def exec_module(self, module: ModuleType) -> None:
        """Runs the changed code."""
        module.__file__ = self.path
        exec(self.code, module.__dict__)


def in_child(connection: Connection, work: Callable[[], Any]) -> None:
    """Does some work in this process, and sends what came of it: a fault is sent as its text."""
    resource.setrlimit(resource.RLIMIT_AS, (MOST_MEMORY, MOST_MEMORY))
    sys.stdout = sys.stderr = open(os.devnull, "w", encoding="utf-8")
    try:
        connection.send((True, work()))
    except BaseException as fault:  # whatever it is, the readings fail by it
        connection.send((False, f"{type(fault).__name__}: {fault}"[:300]))
    connection.close()


def done_apart(work: Callable[[], Any]) -> Any:
    """Does some work in a process of its own, and gives what came of it."""
    mine, its = PROCESSES.Pipe(duplex=False)
    process = PROCESSES.Process(target=in_child, args=(its, work))
    process.start()
    its.close()
    is_well, result = mine.recv()
    process.join()
    if not is_well:
        raise RuntimeError(result)
    return result


def tried(trial: Trial, top: str, look: Callable[[str], str]) -> str:
    """What the readings find of a change, in this process."""
    gc.disable()
    trial.change.make()
    path = f"{top}/{trial.file}"
    try:
        code = compile(ast.fix_missing_locations(trial.tree), path, "exec")
    except (SyntaxError, ValueError, TypeError) as fault:
        return f"no program: {fault}"
    sys.meta_path.insert(0, Changed(trial.file.removesuffix(".py").replace("/", "."), path, code))
    return look(trial.file)


@dataclass
class Running:
    """A process that tries a change, what it sends, and when it began."""
    process: Any
    connection: Connection
    trial: Trial
    began: float

    def ended(self, limit: float) -> bool:
        """Whether it has ended, or has had its time; what was found then stands in the trial."""
        took = time.monotonic() - self.began
        if self.connection.poll():
            try:
                is_well, found = self.connection.recv()
            except EOFError:
                is_well, found = False, "it ended without a word"
            self.trial.found = found if is_well else f"it fails: {found}"
        elif not self.process.is_alive():
            self.trial.found = "it ended without a word"
        elif took > limit:
            self.process.kill()
            self.trial.found = f"it does not end within {limit:.0f} seconds"
        else:
            return False
        self.process.join()
        self.connection.close()
        self.trial.seconds = took
        return True


def began(trial: Trial, top: str, look: Callable[[str], str]) -> Running:
    """Begins to try a change."""
    mine, its = PROCESSES.Pipe(duplex=False)
    process = PROCESSES.Process(target=in_child, args=(its, lambda: tried(trial, top, look)))
    process.start()
    its.close()
    return Running(process, mine, trial, time.monotonic())


def all_tried(trials: Sequence[Trial], top: str, look: Callable[[str], str], limit: float, jobs: int) -> Iterator[Trial]:
    """Tries all of these, so many side by side, and gives each as it is done."""
    waiting, running = list(reversed(trials)), list[Running]()
    while waiting or running:
        while waiting and len(running) < jobs:
            running.append(began(waiting.pop(), top, look))
        wait([it.connection for it in running], timeout=1)
        done = [it for it in running if it.ended(limit)]
        running = [it for it in running if it not in done]
        yield from (it.trial for it in done)
