int main() { int a[2]; a[5] = 1 / 0; }
