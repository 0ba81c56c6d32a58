int main() { int a[3]; a[3] = 1; }
