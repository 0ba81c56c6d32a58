// A product that overflows inside a member, on line 3.
regular mentat class calc {
  int mul(int x, int y) { rtf(x * y); }
};
int main() {
  calc w;
  int a = w.mul(4294967296, 4294967296);
  print(7);
  print(a - a);
  print(8);
}
