// The same sum, whose result is printed: `main` ends with the trap of line 3, status 3.
regular mentat class calc {
  int add(int x, int y) { rtf(x + y); }
};
int main() {
  calc w;
  int a = w.add(9223372036854775807, 1);
  print(1);
  print(a);
}
