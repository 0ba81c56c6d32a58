regular mentat class calc {
  int sq(int x) { rtf(x * x); }
  int add(int x, int y) { rtf(x + y); }
  int one() { rtf(1); }
};
int main() { calc w; int a = w.add(9223372036854775807, 1); int b = w.sq(9223372036854775807); int c = w.add(b, a); print(c); }
