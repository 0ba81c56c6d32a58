regular mentat class calc {
  int g(int x) { }
};
int main() { calc w; int a = w.g(1); print(a); }
