/* The circuit of bench/core.sh over libquantum: on 12 new qubits a Hadamard and a chain of CNOT, and all are measured,
   as often as the argument says. */
#include <quantum.h>
#include <stdio.h>
#include <stdlib.h>

int main(int argc, char **argv) {
    int ones = 0;
    for (int round = 0; round < atoi(argv[argc - 1]); round++) {
        quantum_reg reg = quantum_new_qureg(0, 12);
        quantum_hadamard(0, &reg);
        for (int place = 0; place + 1 < 12; place++)
            quantum_cnot(place, place + 1, &reg);
        for (int place = 0; place < 12; place++)
            ones += quantum_bmeasure(0, &reg);
        quantum_delete_qureg(&reg);
    }
    printf("%d ones\n", ones);
    return 0;
}
