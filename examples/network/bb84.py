"""BB84: Alice and Bob get a secret key by qubits, and see whether Eve measured these on their way.

    python3 examples/network/bb84.py
"""

import random

from served import served  # finds the client, too
from cqc import CQCConnection, qubit

LENGTH = 512
# as many qubits as a node has room for
BATCH = 16


def send(sender: CQCConnection, receiver: str, bits: list[int], bases: list[int]) -> None:
    """Sends a qubit for each bit: in the basis of Z where the other list has 0, of X where it has 1."""
    with sender.batch():
        for bit, basis in zip(bits, bases):
            sent = qubit(sender)
            if bit:
                sent.X()
            if basis:
                sent.H()
            sender.sendQubit(sent, receiver)


def receive(receiver: CQCConnection, bases: list[int]) -> list[int]:
    """Measures a qubit in each of the bases."""
    outcomes = []
    with receiver.batch():
        for basis in bases:
            came = receiver.recvQubit()
            if basis:
                came.H()
            outcomes.append(came.measure())
    return [int(outcome) for outcome in outcomes]


def exchange(alice: CQCConnection, bob: CQCConnection, eve: CQCConnection | None, coins: random.Random) -> list[tuple[int, int]]:
    """Gives the bits of Alice and Bob for which both chose the same basis."""
    kept = []
    for _ in range(LENGTH // BATCH):
        bits, bases, bases_of_bob, bases_of_eve = ([coins.getrandbits(1) for _ in range(BATCH)] for _ in range(4))
        if eve is None:
            send(alice, "Bob", bits, bases)
        else:
            send(alice, "Eve", bits, bases)
            send(eve, "Bob", receive(eve, bases_of_eve), bases_of_eve)
        outcomes = receive(bob, bases_of_bob)
        kept += [(a, b) for a, b, one, other in zip(bits, outcomes, bases, bases_of_bob) if one == other]
    return kept


def main() -> None:
    coins = random.Random(1)
    with served("Alice", "Bob", "Eve") as network:
        with (CQCConnection("Alice", network=network) as alice, CQCConnection("Bob", network=network) as bob,
              CQCConnection("Eve", network=network) as eve):
            for title, between in ("Without Eve", None), ("With Eve", eve):
                kept = exchange(alice, bob, between, coins)
                compared, secret = kept[::2], kept[1::2]
                wrong = sum(a != b for a, b in compared)
                print(f"{title}: {LENGTH} qubits were sent, and {len(kept)} measured in the basis that they were made in.")
                print(f"  Of these {len(compared)} are compared openly: {wrong} differ.")
                if wrong == 0:
                    print(f"  So nobody measured on the way. The other {len(secret)} are the key, and "
                          f"{'both have the same' if all(a == b for a, b in secret) else 'it is wrong'}.")
                else:
                    print(f"  So somebody measured on the way, and no key is kept. A quarter differs where all are measured in bases of "
                          f"chance; here {wrong / len(compared):.0%}.")


if __name__ == "__main__":
    main()
