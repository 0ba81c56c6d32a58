// A call may name only what is declared before it, so the type rules refuse this one.
regular mentat class calc {
  int sq(int x) { rtf(x * x); }
};

int main() {
  int a = w.sq(3);
  calc w;
  print(a);
}
