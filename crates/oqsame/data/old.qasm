OPENQASM 3.0;
/* a pulse of 40 ns between two
   /* nested */ measurements */
pragma house.standing_hour 7
@bind(2)
qubit $0;
bit[8] mask = "0110_1001";
duration wait = 40ns;
float angle = 1.5e-3;
delay[wait] $0;
if (mask == 0x69) { rz(angle) $0; }
