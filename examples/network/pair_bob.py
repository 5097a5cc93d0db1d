"""Bob takes his half of the pair, and measures it."""

from cqc import CQCConnection

with CQCConnection("Bob") as bob:
    half = bob.recvEPR()
    print(f"Bob: my half of pair {half.get_entInfo().id_AB} is {half.measure()}")
