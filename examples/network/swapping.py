"""Entanglement swapping: Charlie shares a pair with Alice and one with Bob, and makes of them a pair of Alice and Bob, who never met.

    python3 examples/network/swapping.py
"""

from served import served  # finds the client, too
from cqc import CQCConnection, qubit

ROUNDS = 16


def swap(alice: CQCConnection, bob: CQCConnection, charlie: CQCConnection) -> tuple[qubit, qubit]:
    """Gives the qubits of Alice and Bob, which are a pair."""
    with_alice = charlie.createEPR("Alice")
    with_bob = charlie.createEPR("Bob")
    first, second = alice.recvEPR(), bob.recvEPR()
    with_alice.cnot(with_bob)
    with_alice.H()
    # Charlie tells Bob his two outcomes, by which Bob corrects
    if with_alice.measure():
        second.Z()
    if with_bob.measure():
        second.X()
    return first, second


def main() -> None:
    with served("Alice", "Bob", "Charlie") as network:
        with (CQCConnection("Alice", network=network) as alice, CQCConnection("Bob", network=network) as bob,
              CQCConnection("Charlie", network=network) as charlie):
            for basis in "ZX":
                bits: list[list[int]] = [[], []]
                for _ in range(ROUNDS):
                    for half, outcomes in zip(swap(alice, bob, charlie), bits):
                        if basis == "X":
                            half.H()
                        outcomes.append(int(half.measure()))
                equal = sum(a == b for a, b in zip(*bits))
                print(f"Basis {basis}: Alice measures {''.join(map(str, bits[0]))}, Bob {''.join(map(str, bits[1]))}: "
                      f"equal in {equal} of {ROUNDS} rounds")


if __name__ == "__main__":
    main()
