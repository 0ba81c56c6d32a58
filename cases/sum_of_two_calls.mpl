regular mentat class calc {
  int sq(int x) { rtf(x * x); }
  int add(int x, int y) { rtf(x + y); }
  int one() { rtf(1); }
};
int main() { calc w; int a = w.sq(3); int b = w.sq(4); print(a + b); }
