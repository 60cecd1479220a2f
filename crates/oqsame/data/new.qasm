OPENQASM 3.0;
/* a pulse of 40 ns between two measurements,
   as measured on µ-bench 4 */
pragma house.standing_hour 7
@bind(2)
qubit $0;
bit[8] mask = "0110_1001"; // the same mask
duration wait = 40ns;
/* ½ turn, as before */ float angle = 1.5e-4;
delay[wait] $0;
if (mask == 0x69) { rz(angle) $0; }
