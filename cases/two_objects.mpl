regular mentat class calc {
  int sq(int x) { rtf(x * x); }
  int add(int x, int y) { rtf(x + y); }
  int one() { rtf(1); }
};
int main() { calc w; int a = w.one(); calc v; int b = v.add(a * 2, 7 - a); print(a, b, a); }
