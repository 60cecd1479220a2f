OPENQASM 3.0;
include "stdgates.inc";

// two qubits, entangled and measured
qubit[2] q;
bit[2] c;
h q[0];
cx q[0], q[1];
c = measure q;
