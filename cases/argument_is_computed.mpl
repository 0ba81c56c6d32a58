regular mentat class c { int f(int x) { rtf(x); } int g() { rtf(1); } };
int main() { c w; int a = w.f(1); int b = w.f(a * 2); print(b); }
