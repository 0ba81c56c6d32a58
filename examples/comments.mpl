// The least number that a word holds, which no literal can spell.
int main() {
  /* 9223372036854775807 is the greatest one. */
  print(0 - 9223372036854775807 - 1);
  print(9223372036854775807); // and that is it
}
