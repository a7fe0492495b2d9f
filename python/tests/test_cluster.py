"""Questions spread over local workers of dask.distributed, some of which are killed."""
from __future__ import annotations

import logging
import os
import signal
import tempfile
import time
import unittest
from collections import Counter
from contextlib import closing
from typing import Any, Iterator, List, Tuple

from subgraph_solver import Failed, Graph, Proof, ProgramMissing, TextRefused, WorkerLost, batch, check, verify
from subgraph_solver.program import find_program

from .asked import CYCLE, PATH, TRIANGLE, StandIn, needs, needs_program

#: A program that answers `none`, or `yes` where the pattern has fewer vertices than the target. A pattern of 13 vertices kills
#: the process that asks, and one of 14 takes a minute; both are noted.
ANSWERS = """number=0
while read -r pattern target how; do
    number=$((number + 1))
    read -r p <"$pattern"
    read -r t <"$target"
    case $p in 13 | 14) echo "$p $$" >>{notes!r} ;; esac
    [ "$p" = 14 ] && exec sleep 60
    [ "$p" = 13 ] && { sleep 1; kill -9 $PPID; exec sleep 5; }
    images=""
    at=0
    while [ "$at" -lt "$p" ]; do images="$images $at"; at=$((at + 1)); done
    if [ "$p" -lt "$t" ]; then echo "$number: yes$images"; else echo "$number: none"; fi
done <list
"""


def graph(size: int) -> Graph:
    return Graph([], range(size))


def small(count: int) -> Iterator[Tuple[Graph, Graph]]:
    """Questions, each third of which has the answer ``None``."""
    return ((graph(3 + n % 3), graph(5)) for n in range(count))


def wanted(number: int) -> Any:
    """The answer to a question of `small` by its number, from 1."""
    size = 3 + (number - 1) % 3
    return {n: n for n in range(size)} if size < 5 else None


class OnWorkers:
    """Tests by so many workers."""

    workers = 0

    @classmethod
    def setUpClass(cls) -> None:
        import dask
        from distributed import Client, LocalCluster

        # Else a local worker that takes longer to begin anew is taken away for good.
        dask.config.set({"distributed.deploy.lost-worker-timeout": "10 minutes"})
        logging.getLogger("distributed").setLevel(logging.CRITICAL)
        how = {"n_workers": cls.workers, "threads_per_worker": 1, "dashboard_address": None}
        cls.cluster = LocalCluster(processes=True, silence_logs=logging.CRITICAL, **how)
        cls.client = Client(cls.cluster)

    @classmethod
    def tearDownClass(cls) -> None:
        cls.client.close()
        cls.cluster.close()

    def test_order(self) -> None:
        with StandIn(body=ANSWERS, by="/bin/sh") as program:
            how = {"client": self.client, "program": program.path, "piece": 7}
            self.assertEqual(list(batch(small(100), **how)), [wanted(n) for n in range(1, 101)])
            done = list(batch(small(100), as_done=True, **how))
        self.assertEqual(sorted(number for number, _ in done), list(range(1, 101)))
        self.assertTrue(all(it == wanted(number) for number, it in done))

    def test_a_worker_is_killed(self) -> None:
        """In the middle: nothing is lost, and nothing comes twice."""
        numbers: List[int] = []
        with StandIn(body=ANSWERS, by="/bin/sh") as program:
            how = {"client": self.client, "program": program.path, "piece": 10, "as_done": True}
            for number, it in batch(small(300), **how):
                numbers.append(number)
                self.assertEqual(it, wanted(number))
                if len(numbers) == 100:
                    os.kill(next(it.pid for it in self.cluster.workers.values() if it.pid), signal.SIGKILL)
        self.assertEqual(Counter(numbers), Counter(range(1, 301)))

    def test_a_question_kills_its_worker(self) -> None:
        with StandIn(body=ANSWERS, by="/bin/sh") as program:
            questions = list(small(120))
            for number in (31, 77):
                questions[number - 1] = graph(13), graph(20)
            told = list(batch(questions, client=self.client, program=program.path, piece=10))
            self.assertEqual(program.words()[0][0], "13")
            self.assertEqual(len(program.words()), 4)
        for number, it in enumerate(told, 1):
            if number in (31, 77):
                self.assertIsInstance(it, Failed)
                self.assertIsInstance(it.error, WorkerLost)
                self.assertEqual(it.error.job, number)
            else:
                self.assertEqual(it, wanted(number))

    def test_given_up(self) -> None:
        """A caller that stops ends the programs that run for it."""
        with StandIn(body=ANSWERS, by="/bin/sh") as program:
            questions = [(graph(3), graph(5)), *[(graph(14), graph(20))] * 20]
            with closing(batch(questions, client=self.client, program=program.path, piece=1)) as answers:
                self.assertEqual(next(answers), {0: 0, 1: 1, 2: 2})
                while not os.path.exists(program.notes):
                    time.sleep(0.1)
            ends = time.monotonic() + 30
            while any(_is_running(int(pid)) for _, pid in program.words()) and time.monotonic() < ends:
                time.sleep(0.1)
            self.assertFalse(any(_is_running(int(pid)) for _, pid in program.words()))

    def test_memory(self) -> None:
        """No more questions are taken than are needed."""
        taken = 0

        def counted() -> Iterator[Any]:
            nonlocal taken
            for it in small(100_000):
                taken += 1
                yield it

        with StandIn(body=ANSWERS, by="/bin/sh") as program:
            with closing(batch(counted(), client=self.client, program=program.path, piece=5)) as answers:
                for _ in range(10):
                    next(answers)
        self.assertLessEqual(taken, 10 + 5 * 3 * self.workers + 5)

    @needs_program
    def test_faults(self) -> None:
        program = find_program()
        with self.assertRaises(ProgramMissing):
            list(batch([(PATH, CYCLE)], client=self.client, program="/no/program"))
        with tempfile.TemporaryDirectory() as folder:
            path, odd = (os.path.join(folder, name) for name in ("path", "odd"))
            for name, text in ((path, "3 1 1 1 2 0"), (odd, "2 / 0")):
                with open(name, "w", encoding="ascii") as file:
                    file.write(text)
            questions = [(path, path), (path, odd), (os.path.join(folder, "none"), path), (path, path)]
            told = list(batch(questions, client=self.client, program=program))
            self.assertEqual([isinstance(it, Failed) for it in told], [False, True, True, False])
            self.assertEqual(str(told[1]), "failed: job 2 target: word 2: NotNumber")
            self.assertEqual(list(told[0]), [0, 1, 2])
            with self.assertRaises(TextRefused) as refused:
                list(batch(questions[:2], client=self.client, program=program, errors="raise"))
            self.assertEqual(refused.exception.job, 2)

    @needs_program
    def test_proofs(self) -> None:
        with tempfile.TemporaryDirectory() as folder:
            how = {"client": self.client, "program": find_program(), "prove": folder}
            told = list(batch([(TRIANGLE, CYCLE), (PATH, CYCLE), (PATH, TRIANGLE, True)], **how))
            self.assertTrue(verify(PATH, CYCLE, told[1]))
            for it in (told[0], told[2]):
                self.assertIsInstance(it, Proof)
                self.assertEqual(check(it.encoding, it.log), "unsatisfiable")
            self.assertEqual(sorted(os.listdir(folder)), ["1.opb", "1.proof", "3.opb", "3.proof"])


def _is_running(pid: int) -> bool:
    try:
        with open(f"/proc/{pid}/stat", encoding="ascii") as file:
            return file.read().rpartition(")")[2].split()[0] != "Z"
    except OSError:
        return False


@needs("distributed")
class TwoWorkers(OnWorkers, unittest.TestCase):
    workers = 2


@needs("distributed")
class FourWorkers(OnWorkers, unittest.TestCase):
    workers = 4


if __name__ == "__main__":
    unittest.main()
