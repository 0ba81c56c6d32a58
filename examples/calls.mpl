// Results of calls feed other calls, in the order in which they stand.
regular mentat class calc {
  int add(int x, int y) { rtf(x + y); }
  int sq(int x) { rtf(x * x); }
  int mul(int x, int y) { rtf(x * y); }
};
int main() {
  calc w;
  int a = w.sq(5);
  int b = w.mul(a, 2);
  int c = w.add(a, b);
  print(a, b, c);
  print(a + b + c);
}
