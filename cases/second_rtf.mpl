regular mentat class calc {
  int f(int x) { rtf(1); rtf(2); }
};
int main() { calc w; int a = w.f(7); print(a); }
