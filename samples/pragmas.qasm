OPENQASM 3.1;
pragma house.standing_hour 7
#pragma house.night_batch 7
/* a pragma in a comment is none, nor is one on
pragma a line of its own there */
int pragmatic = 1; // pragma
  pragma house.indented, and pragma twice
@bind pragma
qubit pragmas;
bit c = "pragma";
#pragmatic
pragma
