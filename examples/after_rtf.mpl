// rtf gives the result and doesn't leave the body: the loop still runs.
regular mentat class calc {
  int f(int x) {
    rtf(x);
    int i = 0;
    while (i < 3) { i = i + 1; }
  }
};

int main() {
  calc w;
  int a = w.f(7);
  print(a);
}
