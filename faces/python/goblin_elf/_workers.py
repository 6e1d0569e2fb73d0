"""Runs a function on batches of paths in other processes: in some of this machine, or in those of a cluster of Dask. A worker that ends, at
whatever moment, changes no result: its batch is tried again. This process listens on no port: a pair of sockets without a name leads to each
process of this machine."""
import collections
import contextlib
import ctypes
import itertools
import logging
import multiprocessing.connection
import os
import pickle
import resource
import signal
import subprocess
import sys
import threading
from typing import Any, Callable, Generator, Iterator, List, Optional, Tuple

Batch = List[str]
Function = Callable[[Batch], Any]
# Each batch, in order, with what the function returns for it. Of a path over which TRIES workers ended it is `None`.
Results = Generator[Tuple[Batch, Optional[Any]], None, None]
TRIES = 4
# The most bytes of a result of more than one path.
MESSAGE = 64 << 20
# How many workers may end in a row before they are ready, and how many seconds to wait for a scheduler, and for the first of its workers.
STARTS, PATIENCE = 16, 20
PR_SET_PDEATHSIG = 1  # of Linux's prctl
LIMIT = threading.Lock()
# What a worker runs: it receives where modules are, a function, and what that is called with.
START = 'import sys; from multiprocessing.connection import Connection; connection = Connection(int(sys.argv[1])); ' \
        'sys.path[:] = connection.recv(); function, *given = connection.recv(); function(connection, *given)'


class Stopped(Exception):
    """Why the other batches can't be done, as a sentence."""


class Task:
    """A batch: how many workers ended over it, and its result."""

    def __init__(self, batch: Batch) -> None:
        self.batch, self.ends = batch, 0
        self.is_given = self.is_done = False
        self.result: Optional[Any] = None


class Worker:
    """A process of this machine that runs the function, and its task. It is ready once it has said so."""

    def __init__(self, function: Function, memory: int) -> None:
        self.connection, theirs = multiprocessing.Pipe()
        self.task: Optional[Task] = None
        self.is_ready = False
        folder, flags = os.getcwd(), subprocess._args_from_interpreter_flags()  # type: ignore[attr-defined]
        try:
            # (as it starts, Python looks for modules in the current folder, which may be a stranger's)
            self.process = subprocess.Popen([sys.executable, *flags, '-c', START, str(theirs.fileno())], cwd='/', pass_fds=[theirs.fileno()])
        except OSError as error:
            raise Stopped(f'no worker can be started: {error.strerror}') from None
        finally:
            theirs.close()
        with contextlib.suppress(OSError):  # (it has ended, which `take` of the workers finds)
            self.connection.send([os.path.join(folder, path) for path in sys.path])
            self.connection.send((work, function, memory, folder))

    def give(self, task: Task) -> None:
        self.connection.send(task.batch)
        self.task, task.is_given = task, True

    def take(self) -> None:
        """Receives that it is ready, or the result of its task. Raises EOFError or OSError if it has ended."""
        message = self.connection.recv()
        if self.task:
            self.task.result, self.task.is_done = message, True
        self.task, self.is_ready = None, True

    def end(self) -> None:
        self.process.kill()
        self.process.wait()
        self.connection.close()


@contextlib.contextmanager
def limited(memory: int) -> Iterator[None]:
    """Lets this process take little memory meanwhile, and not more than before. Other threads that ask for this wait, since the limit is one."""
    with LIMIT:
        soft, hard = resource.getrlimit(resource.RLIMIT_DATA)
        resource.setrlimit(resource.RLIMIT_DATA, (memory if soft == resource.RLIM_INFINITY else min(memory, soft), hard))
        try:
            yield
        finally:
            resource.setrlimit(resource.RLIMIT_DATA, (soft, hard))


def in_turn(function: Function, memory: int, batches: Iterator[Batch]) -> Results:
    """Runs the function in this process and in little memory, on a path at a time, so that it holds the result of one."""
    for path in itertools.chain.from_iterable(batches):
        with limited(memory):
            result = function([path])
        yield [path], result


def work(connection: Any, function: Function, memory: int, folder: str) -> None:
    """Runs the function on each batch that comes, in a folder and in little memory, until the other side ends or memory runs out."""
    # (what ends the process that started it, such as SIGTERM, ends it, too, in the midst of a batch)
    ctypes.CDLL(None).prctl(PR_SET_PDEATHSIG, signal.SIGKILL)
    os.chdir(folder)
    with limited(memory), contextlib.suppress(EOFError, ConnectionError, MemoryError):
        connection.send(None)
        while True:
            batch = connection.recv()
            message = pickle.dumps(function(batch))
            if len(batch) > 1 and len(message) > MESSAGE:
                return  # (so that the batch is divided)
            connection.send_bytes(message)


class Workers:
    """Some workers, and the tasks whose results are not yielded yet, in order."""

    def __init__(self, function: Function, count: int, memory: int) -> None:
        self.function, self.count, self.memory = function, count, memory
        self.workers: List[Worker] = []
        self.tasks: List[Task] = []
        self.failed_starts = 0

    def results(self, batches: Iterator[Batch]) -> Results:
        try:
            while True:
                self.tasks += map(Task, itertools.islice(batches, max(0, 4 * self.count - len(self.tasks))))
                if not self.tasks:
                    return
                self.give()
                self.take()
                while self.tasks and self.tasks[0].is_done:
                    task = self.tasks.pop(0)
                    yield task.batch, task.result
        finally:
            for worker in self.workers:
                worker.end()

    def give(self) -> None:
        """Starts what workers are missing, and gives each one without a task the next."""
        while len(self.workers) < min(self.count, len(self.tasks)):
            # (it inherits the mask, so that Ctrl-C ends this process alone, once the worker is one of those that it ends)
            mask = signal.pthread_sigmask(signal.SIG_BLOCK, [signal.SIGINT])
            try:
                self.workers.append(Worker(self.function, self.memory))
            finally:
                signal.pthread_sigmask(signal.SIG_SETMASK, mask)
        # (no others, since the results of those after one that takes long are held until it is done)
        tasks = [task for task in self.tasks[:4 * self.count] if not task.is_given]
        for worker, task in zip([worker for worker in self.workers if worker.is_ready and not worker.task], tasks):
            with contextlib.suppress(OSError):  # (it has ended, which `take` finds)
                worker.give(task)

    def take(self) -> None:
        """Waits until a worker is ready, has a result or has ended."""
        by_connection = {worker.connection: worker for worker in self.workers}
        for connection in multiprocessing.connection.wait(list(by_connection)):
            worker = by_connection[connection]  # type: ignore[index]
            try:
                worker.take()
                self.failed_starts = 0
            except (EOFError, OSError):
                self.replace(worker)

    def replace(self, worker: Worker) -> None:
        """Takes away a worker that has ended. The paths of its task become tasks of their own."""
        worker.end()
        self.workers.remove(worker)
        self.failed_starts += not worker.is_ready
        if self.failed_starts == STARTS:
            raise Stopped(f'{STARTS} workers ended as they started, the last one with exit code {worker.process.returncode}')
        task = worker.task
        if task and len(task.batch) > 1:
            place = self.tasks.index(task)
            self.tasks[place:place + 1] = [Task([path]) for path in task.batch]
        elif task:
            task.ends += 1
            task.is_done = task.is_given = task.ends == TRIES


class Scheduled:
    """The batches that a scheduler of Dask has, in order, each with its future."""

    def __init__(self, function: Function, address: str) -> None:
        # (imported here, since a worker of this machine needs none of them)
        import asyncio
        import concurrent.futures
        try:
            import distributed
        except ModuleNotFoundError as error:
            # (it needs others)
            raise Stopped(f'{error.name} is not installed, which --scheduler needs') from None
        except ImportError as error:
            raise Stopped(f'distributed can not be imported, which --scheduler needs: {error}') from None
        logging.disable()  # (what it logs of a lost connection is said here in a sentence)
        self.function, self.address, self.killed = function, address, distributed.KilledWorker
        self.late = asyncio.TimeoutError, TimeoutError
        self.gone = asyncio.CancelledError, concurrent.futures.CancelledError, OSError
        try:
            self.client: Any = distributed.Client(address, timeout=PATIENCE)
        except (OSError, ValueError) as error:
            raise Stopped(f'the scheduler {address} does not answer: {error}') from None
        try:
            self.wait_for_workers()
        except Stopped:
            self.client.close()
            raise

    def results(self, batches: Iterator[Batch]) -> Results:
        with self.client:
            try:
                yield from self.found(batches)
            except self.gone:
                raise Stopped(f'the scheduler {self.address} is gone') from None
            except (AttributeError, ImportError, TypeError) as error:
                raise Stopped(f'a worker of the scheduler {self.address} can not run this: {error}') from None

    def found(self, batches: Iterator[Batch]) -> Results:
        futures = collections.deque(map(self.submitted, itertools.islice(batches, 4 * max(1, len(self.client.ncores())))))
        while futures:
            yield from self.result(*futures.popleft())
            futures.extend(map(self.submitted, itertools.islice(batches, 1)))

    def submitted(self, batch: Batch) -> Tuple[Batch, Any]:
        return batch, self.client.submit(self.function, batch, pure=False)

    def result(self, batch: Batch, future: Any) -> Results:
        """Waits for a batch. If it ends its workers, or takes their memory, each path is a batch of its own."""
        try:
            yield batch, self.waited(future)
        except (self.killed, MemoryError):
            if len(batch) == 1:
                yield batch, None
            else:
                for path in batch:
                    yield from self.result(*self.submitted([path]))

    def waited(self, future: Any) -> Any:
        while True:
            try:
                return future.result(timeout=PATIENCE)
            except self.late:
                self.wait_for_workers()
                print(f'goblin-scan: the scheduler {self.address} has had no result for {PATIENCE} seconds; waiting', file=sys.stderr)

    def wait_for_workers(self) -> None:
        try:
            self.client.wait_for_workers(1, timeout=PATIENCE)
        except self.late:
            raise Stopped(f'the scheduler {self.address} has no workers') from None
