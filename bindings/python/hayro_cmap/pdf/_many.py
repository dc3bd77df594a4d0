"""Commands for many PDF files: in sequence, in processes on this machine, or on a cluster of Dask."""

import contextlib
import errno
import functools
import itertools
import multiprocessing
import os
import signal
import sys
from multiprocessing import connection
from typing import Any, Dict, Iterable, Iterator, List, NamedTuple, Optional, Sequence, Tuple

from ._commands import Progress, Result, results_of, run, unread
from ._limits import NO_MEMORY, SECONDS, no_time
from ._paths import readable, reason_of

#: The seconds that an idle process waits before it checks that its parent still exists.
SECONDS_TO_LOOK = 5.0

#: The seconds of processor time beyond the limit of a file after which the system ends the process.
GRACE = 10

#: The number of submitted files for each thread of a cluster.
AT_HAND = 8

#: The seconds in which a scheduler must answer.
TO_ANSWER = 10


def check_files(paths: Iterable[str], **options: Any) -> Iterator[str]:
    """The lines of JSON that `python3 -m hayro_cmap.pdf check --json` prints for these files.

    `paths` may also be a single path. A file that can't be read has one line, with `unread`. The options are
    `password`, `lenient`, `guesses` and `seconds`, the maximum processor time for a file. The function is for tools
    that split a list of paths into parts, for example

        context.parallelize(paths, 100).mapPartitions(hayro_cmap.pdf.check_files)
    """
    given = [os.fspath(paths)] if isinstance(paths, (str, os.PathLike)) else paths
    for result in results_of(given, "check", options):
        yield from json_lines(result)


def json_lines(result: Result) -> Iterator[str]:
    """The result for a file as lines of JSON."""
    import json

    for it in result.objects:
        yield json.dumps({"file": readable(result.path), **it}, sort_keys=True, separators=(",", ":"))


@contextlib.contextmanager
def limited_memory(most: Optional[int]) -> Iterator[None]:
    """Limits the memory of this process in the block to `most` bytes, or to an existing lower limit. An allocation
    beyond the limit raises MemoryError."""
    if most is None:
        yield
        return
    import resource

    soft, hard = resource.getrlimit(resource.RLIMIT_AS)
    # a negative limit means no limit
    resource.setrlimit(resource.RLIMIT_AS, (min(it for it in (most, soft, hard) if it >= 0), hard))
    try:
        yield
    finally:
        resource.setrlimit(resource.RLIMIT_AS, (soft, hard))


class Task(NamedTuple):
    """The task of processes for files."""

    command: str
    options: Dict[str, Any]
    #: The memory limit of each process in bytes; None for no limit.
    memory: Optional[int]
    progress: Progress = iter

    @property
    def seconds(self) -> Optional[float]:
        """The maximum processor time for a file, in seconds; None for no limit."""
        return self.options.get("seconds", SECONDS)

    def result(self, path: str) -> Result:
        """The result for a file. The system ends a process that greatly exceeds the time limit."""
        if self.seconds is not None:
            signal.setitimer(signal.ITIMER_PROF, self.seconds + GRACE)
        try:
            return run(path, self.command, self.options, self.progress)
        finally:
            signal.setitimer(signal.ITIMER_PROF, 0)


class Worker:
    """A process that runs a command over files, one at a time."""

    def __init__(self, task: Task):
        self._task = task
        self.end, other = multiprocessing.Pipe()
        self.process = multiprocessing.Process(target=serve, args=(other, self.end, task, os.getpid()), daemon=True)
        # this process handles an interrupt, and then ends the worker
        before = signal.pthread_sigmask(signal.SIG_BLOCK, [signal.SIGINT])
        try:
            self.process.start()
        finally:
            signal.pthread_sigmask(signal.SIG_SETMASK, before)
        # after this, only the worker has its end of the pipe
        other.close()
        #: The index and the path of its current file.
        self.index, self.path = -1, ""

    def begin(self, index: int, path: str) -> None:
        """Sends it a file."""
        self.index, self.path = index, path
        self.end.send(path)

    def result(self) -> Optional[Result]:
        """Its result for the file; None if it ended."""
        try:
            return self.end.recv()
        except (EOFError, OSError):
            self.process.join()
            return None

    def fault(self) -> str:
        """The reason for its end, as a message."""
        code = self.process.exitcode or 0
        if code == -signal.SIGPROF and self._task.seconds is not None:
            return f"it can't be read: {no_time(self._task.seconds)}"
        return f"the process that read it ended, {f'by signal {-code}' if code < 0 else f'with status {code}'}"

    def end_soon(self) -> None:
        """Makes it end, without waiting."""
        self.end.close()
        self.process.terminate()

    def close(self) -> None:
        """Makes it end, and waits."""
        self.end_soon()
        self.process.join()


def serve(end: connection.Connection, other: connection.Connection, task: Task, parent: int) -> None:
    """Runs a task for the files that come through a pipe, until the process at the other end is gone."""
    # otherwise this process would wait until it reads its own messages
    other.close()
    with limited_memory(task.memory), contextlib.suppress(EOFError, OSError):
        while True:
            while not end.poll(SECONDS_TO_LOOK):
                if os.getppid() != parent:
                    return
            give(end, task, end.recv())


def give(end: connection.Connection, task: Task, path: str) -> None:
    """Sends the result for a file through a pipe, only in the form that is printed."""
    other = "lines" if task.options.get("json") else "objects"
    try:
        end.send(task.result(path)._replace(**{other: []}))
    except MemoryError:
        end.send(unread(path, f"it can't be read: {NO_MEMORY}"))


class Pool:
    """Processes, busy with a file or idle."""

    def __init__(self, task: Task):
        self._start = functools.partial(Worker, task)
        self.busy: List[Worker] = []
        self.idle: List[Worker] = []

    def begin(self, index: int, path: str) -> None:
        """Sends a file to an idle process, or otherwise to a new process."""
        worker = self.idle.pop() if self.idle else self._start()
        try:
            worker.begin(index, path)
        except OSError:
            # the process ended while it was idle
            worker.close()
            worker = self._start()
            worker.begin(index, path)
        self.busy.append(worker)

    def finished(self) -> Iterator[Tuple[int, Result]]:
        """The index and the result of each finished file. It waits for at least one."""
        ends = [worker.end for worker in self.busy]
        # with a single process, `result` waits
        if len(ends) > 1:
            ends = connection.wait(ends)
        for worker in [it for it in self.busy if it.end in ends]:
            self.busy.remove(worker)
            result = worker.result()
            if result is None:
                worker.close()
                result = unread(worker.path, worker.fault())
            else:
                self.idle.append(worker)
            yield worker.index, result

    def close(self) -> None:
        """Ends all processes."""
        for worker in self.busy + self.idle:
            worker.end_soon()
        for worker in self.busy + self.idle:
            worker.process.join()


def by_processes(paths: Sequence[str], task: Task, jobs: int) -> Iterator[Result]:
    """The result for each file, in order, from this number of processes. If a process ends, only its file is lost."""
    pool, left = Pool(task), enumerate(paths)
    done: Dict[int, Result] = {}
    awaited = 0
    try:
        for item in itertools.islice(left, jobs):
            pool.begin(*item)
        while pool.busy:
            for index, result in pool.finished():
                done[index] = result
                for item in itertools.islice(left, 1):
                    pool.begin(*item)
            while awaited in done:
                yield done.pop(awaited)
                awaited += 1
    finally:
        pool.close()


def by_dask(paths: Sequence[str], command: str, options: Dict[str, Any], address: str) -> Iterator[Result]:
    """The results of a command for each file, in any order, from the workers of a Dask scheduler.

    Each worker needs the package, the library and pikepdf, and the files at the same paths. If a worker dies, another
    worker takes its files. A file on which several workers die counts as a file that can't be read.
    """
    client = client_of(address)
    # an interrupt may leave an incomplete object of Dask, whose finalizer raises an exception that nothing can catch
    sys.unraisablehook = lambda _: None
    try:
        with client:
            suspects = []
            for path, result in submitted(client, paths, command, options):
                if result is None:
                    suspects.append(path)
                else:
                    yield result
            # some files only shared a worker with a file that ends workers: each is tried alone
            for path in suspects:
                for _, result in submitted(client, [path], command, options):
                    yield unread(path, "the workers that read it ended") if result is None else result
    except OSError as fault:
        raise OSError(errno.ECONNRESET, f"the scheduler went away: {reason_of(fault)}", address) from fault


def client_of(address: str):
    """A client of a Dask scheduler. Raises OSError if the scheduler can't be reached."""
    import asyncio

    from distributed import Client

    try:
        # tried first: a client without a scheduler takes long to end
        asyncio.run(reach(address))
        return Client(address, set_as_default=False, timeout=TO_ANSWER)
    except Exception as fault:  # Dask raises many kinds of exceptions for invalid addresses
        raise OSError(errno.EHOSTUNREACH, f"the scheduler can't be reached: {reason_of(fault)}", address) from fault


async def reach(address: str) -> None:
    """Connects to a Dask scheduler, and closes the connection."""
    from distributed.comm import connect
    from distributed.security import Security

    end = await connect(address, timeout=TO_ANSWER, **Security().get_connection_args("client"))
    await end.close()


def submitted(client, paths: Sequence[str], command: str, options: Dict[str, Any]):
    """Pairs of a path and its result, or None if workers died on the file. Only a few paths are submitted at a time."""
    from distributed import as_completed
    from distributed.scheduler import KilledWorker

    left = iter(paths)
    submit = lambda path: client.submit(run, path, command, options, pure=False)
    at_hand = AT_HAND * max(1, sum(client.nthreads().values()))
    of = {submit(path): path for path in itertools.islice(left, at_hand)}
    completed = as_completed(list(of), loop=client.loop)
    for future in completed:
        path = of.pop(future)
        fault = future.exception()
        if fault is None:
            yield path, future.result()
        elif isinstance(fault, KilledWorker):
            yield path, None
        else:
            yield path, unread(path, f"it can't be read: {fault}")
        future.release()
        for upcoming in itertools.islice(left, 1):
            another = submit(upcoming)
            of[another] = upcoming
            completed.add(another)
