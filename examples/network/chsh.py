"""The CHSH game: Alice is asked x and Bob y, both 0 or 1, and each answers a bit without knowing the other's question. They win where
their answers differ exactly if x and y are both 1. With an entangled pair they win more often than without.

    python3 examples/network/chsh.py
"""

import math
import random

from served import served  # finds the client, too
from cqc import CQCConnection

ROUNDS = 10_000
# as many pairs as a node has room for
BATCH = 16


def play(alice: CQCConnection, bob: CQCConnection, questions: list[tuple[int, int]]) -> int:
    """Plays a round for each two questions, and gives the number of wins."""
    first, second = [], []
    with alice.batch():
        for x, _ in questions:
            half = alice.createEPR("Bob")
            # Alice measures in the basis of Z for 0, of X for 1
            if x == 1:
                half.H()
            first.append(half.measure())
    with bob.batch():
        for _, y in questions:
            half = bob.recvEPR()
            # Bob measures between the bases of Z and X for 0, of Z and -X for 1: an eighth of a turn to either side
            half.rot_Y(224 if y == 0 else 32)
            second.append(half.measure())
    return sum((int(a) ^ int(b)) == (x & y) for (x, y), a, b in zip(questions, first, second))


def main() -> None:
    coins = random.Random(1)
    with served("Alice", "Bob") as network:
        with CQCConnection("Alice", network=network) as alice, CQCConnection("Bob", network=network) as bob:
            wins = sum(play(alice, bob, [(coins.getrandbits(1), coins.getrandbits(1)) for _ in range(BATCH)])
                       for _ in range(ROUNDS // BATCH))
        exact = math.cos(math.pi / 8) ** 2
        deviation = math.sqrt(exact * (1 - exact) / ROUNDS)
        off = abs(wins / ROUNDS - exact) / deviation
        print(f"Alice and Bob won {wins} of {ROUNDS} rounds, a rate of {wins / ROUNDS:.4f}.")
        print(f"The exact rate is cos²(π/8) = {exact:.4f}. It is {off:.1f} standard deviations away, {'within' if off < 4 else 'beyond'} 4.")
        print(f"Without entanglement they win 0.7500 at most. That is {(wins / ROUNDS - 0.75) / deviation:.1f} standard deviations away.")


if __name__ == "__main__":
    main()
