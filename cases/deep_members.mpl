regular mentat class calc {
  int down(int n) {
    calc w;
    if (n == 0) { rtf(0); }
    else { int a = w.down(n - 1); rtf(a + 1); }
  }
};
int main() { calc w; int a = w.down(400000); print(a); }
