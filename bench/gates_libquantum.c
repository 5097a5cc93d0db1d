/* As crates/gate_timing, over libquantum: on a dense register of 12 qubits, for each argument 1,000 pairs of a
   Hadamard and a turn by an eighth, or 1,000 gates CNOT on neighbours. */
#include <math.h>
#include <quantum.h>
#include <stdio.h>
#include <string.h>

static void pairs(quantum_reg *reg) {
    for (int round = 0; round < 500; round++) {
        int place = round % 12;
        quantum_hadamard(place, reg);
        quantum_phase_kick(place, M_PI / 4, reg);
        quantum_phase_kick(place, -M_PI / 4, reg);
        quantum_hadamard(place, reg);
    }
}

static void nots(quantum_reg *reg) {
    for (int round = 0; round < 1000; round++)
        quantum_cnot(round % 11, round % 11 + 1, reg);
}

int main(int argc, char **argv) {
    quantum_reg reg = quantum_new_qureg(0, 12);
    for (int place = 0; place < 12; place++) {
        quantum_hadamard(place, &reg);
        quantum_phase_kick(place, M_PI / 4, &reg);
    }
    for (int word = 1; word < argc; word++) {
        if (strcmp(argv[word], "pairs") == 0)
            pairs(&reg);
        else
            nots(&reg);
    }
    printf("%d rows\n", reg.size);
    return 0;
}
