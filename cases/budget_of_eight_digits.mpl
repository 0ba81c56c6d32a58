regular mentat class calc {
  int sq(int x) { rtf(x * x); }
};
int main() {
  calc w;
  int a = w.sq(3);
  int b = w.sq(4);
  print(a + b);
}
