regular mentat class c { int f(int x) { rtf(x); } int g() { rtf(1); } };
int main() { c w; int a = w.f(1,); }
