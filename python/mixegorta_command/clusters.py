"""A night on a Dask cluster, whose scheduler hands tasks to workers and runs again what is lost with one."""
import asyncio
import logging
import time
import warnings

from .nights import Answer, library, reports_of, singles
from .streams import Stop
from .valuing import valued

INSTALL = 'install Dask, in Debian by `apt install python3-distributed`, or leave --scheduler out, which values on the processors of this machine'
CONNECT_SECONDS, WORKER_SECONDS, ALONE_SECONDS, ANSWER_SECONDS, ASK_SECONDS = 10, 30, 60, 60, 2
TASKS_A_THREAD, FEWEST_TASKS = 3, 4
# So many tasks after one another whose workers all died, and more than twice those that wait on workers: it is the
# cluster and not a file. Fewer that ran alone tell it as long as no task was answered.
FIRST_DEATHS, MOST_DEATHS = 3, 12
# What Dask raises of a scheduler that is gone; a cancelled task is no Exception.
LOST = (Exception, asyncio.CancelledError)
GO_ON = 'what is done is kept with --resume, and the same command goes on'


class Cluster:
    """Tasks carry the bytes of their files with them, and so does the scheduler: what was scattered to a worker would be lost with it."""

    def __init__(self, address):
        try:
            import distributed
        except ImportError:
            raise Stop(f'--scheduler: {INSTALL}')
        warnings.filterwarnings('ignore', module='distributed')
        # what Dask logs of a lost connection the command tells itself, in one sentence
        logging.disable(logging.CRITICAL)
        self.distributed, self.address, self.running = distributed, address, {}
        self.deaths, self.deaths_alone, self.answered, self.number, self.closed = 0, 0, 0, 0, False
        # files whose tasks lost their workers beside others, and of these the one that runs alone
        self.suspects, self.alone, self.apart = [], None, 0
        self.late = TimeoutError, distributed.TimeoutError
        self.alone_since, self.window = None, FEWEST_TASKS
        self.client = None
        try:
            self.client = distributed.Client(address, timeout=CONNECT_SECONDS)
        except LOST as error:
            raise Stop(f'--scheduler {address}: there is no Dask scheduler ({type(error).__name__})')
        try:
            self._asked(lambda: self.client.wait_for_workers(1, timeout=WORKER_SECONDS))
        except self.late:
            self.close()
            raise Stop(f'--scheduler {address}: it has no worker after {WORKER_SECONDS} seconds; start one by '
                       f'`dask-worker {address}`')
        self._look()

    def _lost(self, error):
        """The sentence on a scheduler that is gone. Dask tells it by errors of many kinds: of the connection, the event
        loop and cancelled tasks."""
        self.close()
        return Stop(f'--scheduler {self.address}: it is lost ({type(error).__name__}); {GO_ON}')

    def _asked(self, question):
        """What the scheduler answers; whatever it raises but being late, it is lost."""
        try:
            return question()
        except self.late:
            raise
        except LOST as error:
            raise self._lost(error)

    def _answered(self, question):
        """What the scheduler answers at once; being late, it is lost too."""
        try:
            return self._asked(question)
        except self.late as error:
            raise self._lost(error)

    def _look(self):
        """Sees how many threads there are to keep busy, and that there is one."""
        threads = sum(self._answered(self.client.nthreads).values())
        self.window = max(FEWEST_TASKS, TASKS_A_THREAD * threads)
        if threads:
            self.alone_since = None
        elif self.alone_since is None:
            self.alone_since = time.monotonic()
        elif time.monotonic() - self.alone_since > ALONE_SECONDS:
            raise Stop(f'--scheduler {self.address}: no worker is left since {ALONE_SECONDS} seconds; {GO_ON}')

    def submit(self, batch):
        self.number += 1
        key = f'mixegorta-books-{self.client.id}-{self.number}'
        self.running[self._answered(lambda: self.client.submit(valued, batch.contents, key=key, pure=False))] = batch

    def full(self):
        return len(self.running) >= self.window

    def busy(self):
        return bool(self.running or self.suspects)

    def _done(self):
        return self.distributed.wait(list(self.running), timeout=ASK_SECONDS, return_when='FIRST_COMPLETED').done

    def finished(self):
        if not self.running:
            self.alone = self.suspects.pop(0)
            self.submit(self.alone)
        try:
            done = self._asked(self._done)
        except self.late:
            self._look()
            return []
        # an answer that was lost with its worker before it came here is worked out again
        return [answer for future in done if future.status != 'lost' for answer in self._answers(future, self.running.pop(future))]

    def _answers(self, future, batch):
        if future.status == 'cancelled':
            raise Stop(f'--scheduler {self.address}: it is lost; {GO_ON}')
        if future.status == 'finished':
            found = self._answered(lambda: future.result(timeout=ANSWER_SECONDS))
            self.deaths, self.deaths_alone, self.answered = 0, 0, self.answered + 1
            return [Answer(batch, reports_of(found))]
        return self._failed(self._answered(lambda: future.exception(timeout=ANSWER_SECONDS)), batch)

    def _failed(self, error, batch):
        """What becomes of a batch whose task failed. Dask counts a death against every task that waited on the worker,
        so each file of the batch runs once more when nothing else waits; one that kills its workers then is called dead."""
        if not isinstance(error, self.distributed.KilledWorker):
            version = library().__version__
            raise Stop(f'a worker could not value ({type(error).__name__}: {error}): install mixegorta {version} where the workers run')
        self.deaths += 1
        self.deaths_alone += batch is self.alone
        if self.deaths >= max(MOST_DEATHS, 2 * self.window) or not self.answered and self.deaths_alone >= FIRST_DEATHS:
            raise Stop(f'--scheduler {self.address}: every worker that took a task died, {self.deaths} tasks in a row; look at the logs of the workers; {GO_ON}')
        if batch is self.alone:
            return [Answer(batch, None)]
        self.suspects += singles(batch)
        self.apart += len(batch.places)
        return []

    def told(self):
        """What a desk should know of a night that is done: that workers died, though files were valued later."""
        if not self.apart:
            return None
        words = '1 file ran once more, alone, since the workers that took it died' if self.apart == 1 else (
            f'{self.apart:,} files ran once more, each alone, since the workers that took them died')
        return f'{words}; look at the logs of the workers'

    def close(self):
        if self.closed:
            return
        self.closed = True
        try:
            self.client.close(timeout=ASK_SECONDS)
        except LOST:
            # whatever is left of the connection, the command ends and the system closes it
            pass
