"""Many threads at once, each with a connection of its own, over two nodes."""

import threading
import unittest
from concurrent.futures import ThreadPoolExecutor

from common import PATIENCE, ServedCase
from cqc import CQCConnection, qubit

PAIRS_OF_THREADS = 8
ROUNDS = 25


class Threads(ServedCase):
    def test_sixteen_threads(self) -> None:
        """Eight threads at each node: thread k of the one and thread k of the other share pairs, and send each other qubits."""
        server = self.serve("Alice", "Bob", workers=PAIRS_OF_THREADS, connections=1, patience=1000 * PATIENCE, wait_ms=1)
        # each round begins together, so that no node has more qubits than it has room for
        steps = [threading.Barrier(2, timeout=PATIENCE) for _ in range(PAIRS_OF_THREADS)]

        def alice(app_id: int) -> list[tuple[int, int]]:
            outcomes = []
            with CQCConnection("Alice", appID=app_id, network=server.network, timeout=PATIENCE) as connection:
                for turn in range(ROUNDS):
                    steps[app_id].wait()
                    half = connection.createEPR("Bob", remote_appID=app_id)
                    half.H()
                    outcome = half.measure()
                    back = connection.recvQubit()
                    outcomes.append((outcome, back.measure()))
            return outcomes

        def bob(app_id: int) -> list[tuple[int, int]]:
            outcomes = []
            with CQCConnection("Bob", appID=app_id, network=server.network, timeout=PATIENCE) as connection:
                for turn in range(ROUNDS):
                    steps[app_id].wait()
                    half = connection.recvEPR()
                    half.H()
                    outcome = half.measure()
                    with connection.batch():
                        answer = qubit(connection)
                        if turn % 2:
                            answer.X()
                        connection.sendQubit(answer, "Alice", remote_appID=app_id)
                    outcomes.append((outcome, turn % 2))
            return outcomes

        with ThreadPoolExecutor(2 * PAIRS_OF_THREADS) as pool:
            ours = [pool.submit(alice, app_id) for app_id in range(PAIRS_OF_THREADS)]
            theirs = [pool.submit(bob, app_id) for app_id in range(PAIRS_OF_THREADS)]
            for one, other in zip(ours, theirs):
                self.assertEqual(one.result(), other.result())
        *ends, entries = server.finish()
        self.assertEqual(ends, [f"{seat} 0 {seat // PAIRS_OF_THREADS} clean" for seat in range(2 * PAIRS_OF_THREADS)])
        self.assertGreaterEqual(int(entries.split()[1]), PAIRS_OF_THREADS * ROUNDS * 10)


if __name__ == "__main__":
    unittest.main()
