// A result is passed on as it stands, also to several calls, and nobody waits for
// it before it is printed.
regular mentat class calc {
  int sq(int x) { rtf(x * x); }
  int add(int x, int y) { rtf(x + y); }
};

int main() {
  calc w;
  int a = w.sq(3);
  int c = w.add(a, a);
  print(c);
}
