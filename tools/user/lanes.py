"""Works on crates side by side: each once those below it are done, the longest way ahead first.

Processors that no other crate waits for are shared among those that begin, and of four or
more the crate with the longest way ahead of all has two: every minute of it is one of the whole.
"""

from __future__ import annotations

import concurrent.futures
import dataclasses
import threading
from collections.abc import Callable, Mapping, Sequence
from typing import Any, Protocol, TypeVar

from tools.common import repository

# What a crate without a measured time counts as, in minutes.
UNMEASURED = 1.0
Result = TypeVar("Result")


class Crate(Protocol):
    """A crate, as the kit's script has it."""

    name: str

    def below(self) -> Sequence[Crate]:
        """The crates of the repository that it stands on."""


@dataclasses.dataclass
class Task:
    """The work on a crate, and what it will come to."""

    work: Callable[[Any], Any]
    crate: Crate
    future: concurrent.futures.Future[Any]


def chains(names: Sequence[str], crates: Mapping[str, Sequence[str]],
           minutes: Mapping[str, float]) -> dict[str, float]:
    """By crate, the minutes of the longest chain of work that begins with it.

    `names` has the crates that are worked on, each after those that it uses."""
    chain: dict[str, float] = {}
    for name in reversed(names):
        above = [chain[it] for it in chain if name in crates[it]]
        chain[name] = minutes.get(name, UNMEASURED) + max(above, default=0.0)
    return chain


def program_chains(minutes: Mapping[str, float]) -> dict[str, float]:
    """The minutes of the chains of crates, for this repository's program and all below it."""
    crates = repository.libraries(repository.TOP / "crates.txt")
    return chains(repository.all_below([repository.PROGRAM], crates), crates, minutes)


class Lanes(concurrent.futures.Executor):
    """A pool for the work on crates. In a plain pool a crate that waits for another holds one."""

    def __init__(self, at_once: int, chain: Mapping[str, float]) -> None:
        """Uses so many processors; of the crates that can begin the longest chain goes first."""
        self.at_once, self.chain = at_once, chain
        self.steps = concurrent.futures.ThreadPoolExecutor(at_once)
        self.waiting: list[Task] = []
        # By crate that is worked on, how many processors it may use.
        self.running: dict[str, int] = {}
        self.done: set[str] = set()
        self.change = threading.Condition()

    def submit(self, work: Callable[..., Result], /, *args: Any,
               **named: Any) -> concurrent.futures.Future[Result]:
        """Hands in the work on a crate, after that on the crates below it; or a step of such work,
        which waits for none. The work has one argument."""
        (given,) = args
        if not hasattr(given, "below"):
            return self.steps.submit(work, given)
        future: concurrent.futures.Future[Result] = concurrent.futures.Future()
        task = Task(work, given, future)
        with self.change:
            self.waiting.append(task)
            self.begin()
        return future

    def begin(self) -> None:
        """Begins what can begin. The caller holds the lock."""
        while (free := self.at_once - sum(self.running.values())) and (ready := self.ready()):
            task = max(ready, key=lambda it: self.chain.get(it.crate.name, 0.0))
            self.waiting.remove(task)
            self.running[task.crate.name] = max(free // len(ready), min(self.least(task), free))
            threading.Thread(target=self.run, args=(task,)).start()

    def least(self, task: Task) -> int:
        """How many processors a task is to have at least, as far as so many are free."""
        others = [it.crate.name for it in self.waiting] + list(self.running)
        own = self.chain.get(task.crate.name, 0.0)
        is_longest = all(self.chain.get(it, 0.0) <= own for it in others)
        return 2 if is_longest and self.at_once >= 4 else 1

    def ready(self) -> list[Task]:
        """The tasks that wait for no other."""
        return [it for it in self.waiting
                if all(below.name in self.done for below in it.crate.below())]

    def run(self, task: Task) -> None:
        """Does a task, and begins what it held up."""
        try:
            task.future.set_result(task.work(task.crate))
        except BaseException as error:  # the future hands on whatever it was
            task.future.set_exception(error)
        with self.change:
            del self.running[task.crate.name]
            self.done.add(task.crate.name)
            self.begin()
            self.change.notify_all()

    def share(self, crate: Crate) -> int:
        """How many processors the work on a crate may use."""
        return self.running.get(crate.name, 1)

    def shutdown(self, wait: bool = True, *, cancel_futures: bool = False) -> None:
        """Waits until all that was handed in has ended."""
        with self.change:
            self.change.wait_for(lambda: not self.waiting and not self.running)
        self.steps.shutdown(wait)
