// A member may call others. Both calls of a body may run at the same time, and the
// sum is asked for before either number is there.
regular mentat class calc {
  int add(int x, int y) { rtf(x + y); }
  int fib(int n) {
    calc w;
    if (n < 2) { rtf(n); }
    else {
      int a = w.fib(n - 1);
      int b = w.fib(n - 2);
      rtf(w.add(a, b));
    }
  }
};

int main() {
  calc w;
  int r = w.fib(10);
  print(r);
}
