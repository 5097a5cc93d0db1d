"""What a refusal looks like: each error of CQC is an exception of its own, which says the command that was refused.

    python3 examples/network/refusals.py
"""

from typing import Callable

from served import served  # finds the client, too
from cqc import CQCConnection, CQCGeneralError, qubit


def attempt(title: str, call: Callable[[], object]) -> None:
    try:
        call()
    except CQCGeneralError as error:
        print(f"{title}:\n  {type(error).__name__}: {error}")


def main() -> None:
    with served("Alice", "Bob") as network:
        with CQCConnection("Alice", network=network) as alice, CQCConnection("Bob", network=network) as bob:
            one = qubit(alice)
            attempt("Alice turns a qubit by 3 / 256 of a turn", lambda: one.rot_X(3))
            attempt("Alice makes a pair with herself", lambda: alice.createEPR("Alice"))
            attempt("Bob takes his half of a pair that nobody made", bob.recvEPR)
            attempt("Bob makes 17 qubits", lambda: bob.allocate_qubits(17))
            one.measure()
            attempt("Alice turns a qubit that she has measured", one.X)


if __name__ == "__main__":
    main()
