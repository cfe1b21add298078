"""Runs jobs in processes of their own, as many at a time as there are processors."""

import gc
import multiprocessing
import os
import signal
from collections.abc import Callable, Iterable, Iterator
from concurrent.futures import FIRST_COMPLETED, Future, ProcessPoolExecutor, wait
from concurrent.futures.process import BrokenProcessPool
from contextlib import contextmanager
from typing import Generic, TypeVar

from .faults import Unreadable
from .parents import is_bound
from .progress import Progress

Result = TypeVar("Result")
Job = Callable[[], Result]  # what a process does; it is handed over as it is pickled
LOOK = 0.2  # seconds from one look at the jobs to the next
SIGNALS = (signal.SIGTERM, signal.SIGHUP, signal.SIGINT)  # that end a command
YOUNG = 50_000  # objects: a job makes rows by the thousand, and few that refer to one another


class Plan(Generic[Result]):
    """Jobs, those that should begin first in front, and for which others each has to wait.

    A job that reads what another writes meanwhile stands somewhere after that one: jobs begin in
    their order, as far as they need not wait.
    """

    def __init__(self) -> None:
        self.jobs: list[Job[Result]] = []
        self._after: list[frozenset[int]] = []

    def add(self, job: Job[Result], after: Iterable[int] = ()) -> int:
        """A job that begins when some others, by their numbers, are done. Answers its number."""
        self.jobs.append(job)
        self._after.append(frozenset(after))
        return len(self.jobs) - 1

    def ready(self, waiting: Iterable[int], done: Iterable[int]) -> list[int]:
        """The jobs that can begin, in their order."""
        over = frozenset(done)
        return [index for index in waiting if self._after[index] <= over]


def plan_of(jobs: Iterable[Job[Result]]) -> Plan[Result]:
    """Jobs of which none waits for another."""
    plan: Plan[Result] = Plan()
    for job in jobs:
        plan.add(job)
    return plan


def processors() -> int:
    return len(os.sched_getaffinity(0))


def nothing() -> None:
    """Is done while jobs run, where there is nothing to do."""


def run_jobs(
    plan: Plan[Result], at_once: int, progress: Progress, meanwhile: Callable[[], None] = nothing
) -> list[Result]:
    """Does all jobs; answers their results in the jobs' order. The first that fails is raised.

    Something else may be done here while the first of them run.
    """
    if not plan.jobs:
        meanwhile()
        return []
    progress.begin("jobs", len(plan.jobs))
    results: dict[int, Result] = {}
    with pool_of(max(1, min(at_once, len(plan.jobs)))) as pool:  # it begins all of them at once
        running = submitted(pool, plan, range(len(plan.jobs)), results)
        meanwhile()
        while running:
            done, _ = wait(running, LOOK, FIRST_COMPLETED)
            for future in done:
                results[running.pop(future)] = result_of(future)
                progress.step(1)
            waiting = [
                index
                for index in range(len(plan.jobs))
                if index not in results and index not in running.values()
            ]
            running |= submitted(pool, plan, waiting, results)
    return [results[index] for index in range(len(plan.jobs))]


def submitted(
    pool: ProcessPoolExecutor,
    plan: Plan[Result],
    waiting: Iterable[int],
    results: dict[int, Result],
) -> dict[Future[Result], int]:
    """Hands over the jobs that can begin."""
    return {pool.submit(plan.jobs[index]): index for index in plan.ready(waiting, results)}


def result_of(future: Future[Result]) -> Result:
    try:
        return future.result()
    except BrokenProcessPool:
        raise Unreadable("a process of the audit ended before its job was done") from None


@contextmanager
def pool_of(count: int) -> Iterator[ProcessPoolExecutor]:
    """Processes that end with the `with`, and at once where that is left by a fault."""
    context = multiprocessing.get_context("fork")
    pool = ProcessPoolExecutor(count, context, begin_worker, (os.getpid(),))
    try:
        yield pool
    except BaseException:
        for process in multiprocessing.active_children():
            process.kill()
        raise
    finally:
        # Waited for: a thread of the pool that goes on closes, at times, what Python's end still
        # writes to, and that is told on standard error.
        pool.shutdown(cancel_futures=True)


def begin_worker(parent: int) -> None:
    """In a process that does jobs. Who waits for it ends it, and it ends when that one does; the
    programs that it runs end with it.
    """
    signal.signal(signal.SIGTERM, signal.SIG_DFL)
    for number in (signal.SIGINT, signal.SIGHUP):  # of a terminal
        signal.signal(number, signal.SIG_IGN)
    gc.freeze()
    gc.set_threshold(YOUNG)
    if not is_bound(parent, signal.SIGKILL):
        os._exit(1)
