"""Alice makes an entangled pair with Bob, and measures her half."""

from cqc import CQCConnection

with CQCConnection("Alice") as alice:
    half = alice.createEPR("Bob")
    print(f"Alice: my half of pair {half.get_entInfo().id_AB} is {half.measure()}")
