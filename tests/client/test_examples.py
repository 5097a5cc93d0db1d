"""The examples of examples/network by their commands: what each claims holds under several seeds."""

import math
import os
import re
import sys
import unittest
from unittest import mock

from common import NETWORK, TOP, ServedCase, run

SEEDS = range(4)
CLEAN = r"\(qron serve executed \d+ commands, and its %d connections ended clean\.\)"


def lines(name: str, *words: str) -> list[str]:
    """What an example prints."""
    return run(sys.executable, "-B", NETWORK / f"{name}.py", *words).decode().splitlines()


class Examples(ServedCase):
    def seeded(self, name: str, seed: int, connections: int) -> list[str]:
        """What an example prints on its own server, without the last line, which is the server's."""
        printed = lines(name, "--seed", str(seed))
        self.assertRegex(printed.pop(), CLEAN % connections)
        return printed

    def test_teleportation(self) -> None:
        cases = set()
        for seed in SEEDS:
            _, *states = self.seeded("teleportation", seed, 2)
            self.assertEqual([line.split()[0] for line in states], ["|0>", "|1>", "|+>", "|->", "|+i>", "|-i>"])
            for line in states:
                z, x, gates, outcome = re.search(r"z = (.) and x = (.), Bob corrected by (\w+) and measured (.)$", line).groups()
                self.assertEqual((gates, outcome), ("X" * int(x) + "Z" * int(z) or "nothing", "0"))
                cases.add((z, x))
        self.assertEqual(len(cases), 4)

    def test_dense_coding(self) -> None:
        for seed in SEEDS:
            self.assertEqual(self.seeded("dense_coding", seed, 2), [
                f"Alice tells {bits} by one qubit, and Bob reads {bits}" for bits in ((0, 0), (0, 1), (1, 0), (1, 1))])

    def test_swapping(self) -> None:
        for seed in SEEDS:
            for basis, line in zip("ZX", self.seeded("swapping", seed, 3), strict=True):
                bits = re.fullmatch(rf"Basis {basis}: Alice measures ([01]{{16}}), Bob \1: equal in 16 of 16 rounds", line)[1]
                self.assertEqual(set(bits), {"0", "1"})

    def test_chsh(self) -> None:
        exact = math.cos(math.pi / 8) ** 2
        for seed in range(2):
            first, second, third = self.seeded("chsh", seed, 2)
            wins = int(re.match(r"Alice and Bob won (\d+) of 10000 rounds", first)[1])
            self.assertLess(abs(wins / 10_000 - exact), 4 * math.sqrt(exact * (1 - exact) / 10_000))
            self.assertRegex(second, rf"^The exact rate is cos²\(π/8\) = {exact:.4f}\. .* within 4\.$")
            self.assertIn("0.7500 at most", third)

    def test_bb84(self) -> None:
        for seed in SEEDS:
            printed = " ".join(self.seeded("bb84", seed, 3))
            (alone, same), (compared, wrong) = re.findall(r"Of these (\d+) are compared openly: (\d+) differ", printed)
            self.assertEqual(same, "0")
            self.assertIn("are the key, and both have the same.", printed)
            self.assertIn("no key is kept", printed)
            self.assertGreater(int(alone), 100)
            self.assertLess(abs(int(wrong) / int(compared) - 0.25), 4 * math.sqrt(0.25 * 0.75 / int(compared)))

    def test_refusals(self) -> None:
        printed = self.seeded("refusals", 0, 2)
        self.assertEqual([line.split(":")[0].strip() for line in printed[1::2]], [
            "CQCUnsuppError", "CQCGeneralError", "CQCTimeoutError", "CQCNoQubitError", "QubitNotActiveError"])

    def test_server_that_runs(self) -> None:
        server = self.serve("Alice", "Bob", workers=1, connections=1)
        printed = lines("dense_coding", "--settings", server.settings)
        self.assertEqual(len(printed), 4)
        self.assertEqual(server.finish()[:2], ["0 0 0 clean", "1 0 1 clean"])

    def test_readme(self) -> None:
        """README has each example's command, and a program that runs where PYTHONPATH and the nodes are as it says."""
        readme = (TOP / "README.md").read_text()
        for path in NETWORK.glob("*.py"):
            if "served(" in path.read_text() and path.name != "served.py":
                self.assertTrue(f"python3 examples/network/{path.name}\n" in readme, path.name)
        program = re.search(r"^```python\n(.*?)^```", readme, re.M | re.S)[1]
        settings = self.serve("Alice", "Bob").settings
        with mock.patch.dict(os.environ, PYTHONPATH=str(TOP / "clients" / "python"), CQC_SETTINGS=settings):
            self.assertRegex(run(sys.executable, "-B", "-c", program), b"^[01] [01]\n$")


if __name__ == "__main__":
    unittest.main()
