regular mentat class c { int f(int x) { rtf(x); } int g() { rtf(1); } };
int main() { c main; int g = main.g(); print(g); }
