"""Superdense coding: Alice tells Bob two bits by one qubit, which is half of a pair that they share.

    python3 examples/network/dense_coding.py
"""

from served import served  # finds the client, too
from cqc import CQCConnection


def tell(alice: CQCConnection, bob: CQCConnection, first: int, second: int) -> tuple[int, int]:
    """Gives the two bits that Bob reads."""
    sent = alice.createEPR("Bob")
    kept = bob.recvEPR()
    if second:
        sent.X()
    if first:
        sent.Z()
    alice.sendQubit(sent, "Bob")
    came = bob.recvQubit()
    came.cnot(kept)
    came.H()
    return int(came.measure()), int(kept.measure())


def main() -> None:
    with served("Alice", "Bob") as network:
        with CQCConnection("Alice", network=network) as alice, CQCConnection("Bob", network=network) as bob:
            for bits in (0, 0), (0, 1), (1, 0), (1, 1):
                print(f"Alice tells {bits} by one qubit, and Bob reads {tell(alice, bob, *bits)}")


if __name__ == "__main__":
    main()
