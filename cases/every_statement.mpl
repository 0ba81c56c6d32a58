struct s { int a, b[2]; };
int f(int x) { return x; }
persistent mentat class p { int n; void put(int x) { n = x; } int get() { rtf(n); } select { priority 1 : guard (n > 0) accept get; priority 0 : accept put; } };
int main() { int a = 1, c[3]; bool d; p o; o.create(); o.put(a); int e = o.get(); { ; } if (d) a = 2; else { a = -3; } while (!d) d = true; for (int i = 0; i < 3; i = i + 1) c[i] = f(i) * 2; for (;d;) ; print(a % 2, d || a == 1 && true); return 0; }