struct vec { int v[4]; };
regular mentat class op {
  int dot(vec a, vec b) {
    int s = 0;
    for (int i = 0; i < 4; i = i + 1) { s = s + a.v[i] * b.v[i]; }
    rtf(s);
  }
};
int main() {
  op w; vec a, b; int i = 0;
  while (i < 4) { a.v[i] = input(); i = i + 1; }
  for (i = 0; i < 4; i = i + 1) { b.v[i] = input(); }
  int d = w.dot(a, b);
  int e = w.dot(b, b);
  print(d, e);
}
