int f() { int x; return x; }
int main() { int x = 4; print(f(), x); }
