"""Teleportation: Alice's qubit gets to Bob by an entangled pair and two bits, though no qubit is sent.

    python3 examples/network/teleportation.py
"""

from served import served  # finds the client, too
from cqc import CQCConnection, qubit

# the six axis states, and the gates that make each of |0>
STATES = {"|0>": "", "|1>": "X", "|+>": "H", "|->": "XH", "|+i>": "K", "|-i>": "XK"}


def teleport(alice: CQCConnection, bob: CQCConnection, message: qubit) -> tuple[int, int, qubit]:
    """Gives the two bits that Alice tells Bob, and Bob's qubit."""
    here = alice.createEPR("Bob")
    there = bob.recvEPR()
    message.cnot(here)
    message.H()
    z = message.measure()
    x = here.measure()
    if x:
        there.X()
    if z:
        there.Z()
    return z, x, there


def main() -> None:
    print("Alice makes a state and teleports it. Bob undoes how it was made, and measures: 0 says that it came.")
    with served("Alice", "Bob") as network:
        with CQCConnection("Alice", network=network) as alice, CQCConnection("Bob", network=network) as bob:
            for name, gates in STATES.items():
                message = qubit(alice)
                for gate in gates:
                    getattr(message, gate)()
                z, x, there = teleport(alice, bob, message)
                for gate in reversed(gates):
                    getattr(there, gate)()
                print(f"{name:4} Alice measured z = {z} and x = {x}, Bob corrected by {'X' * x + 'Z' * z or 'nothing'} "
                      f"and measured {there.measure()}")


if __name__ == "__main__":
    main()
