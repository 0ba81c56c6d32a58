// Products bind tighter than sums, and operators of one rank group to the left. A
// quotient goes towards 0, and a remainder has the sign of its left operand.
int main() {
  print(2 + 3 * 4, (2 + 3) * 4, 10 - 3 - 2);
  print(7 / 2, -7 / 2, 7 % 2, -7 % 2);
  print(1 < 2, 1 == 2, !(1 == 2));
}
