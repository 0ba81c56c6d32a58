regular mentat class calc {
  int div(int x, int y) { rtf(x / y); }
  int big(int x) { rtf(9223372036854775807 + x); }
  int add(int x, int y) { rtf(x + y); }
};
int main() { calc w; int a = w.div(1, 0); int b = w.big(1); int c = w.add(b, a); print(c); }
