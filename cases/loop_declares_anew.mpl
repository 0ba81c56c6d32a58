int main() { for (int i = 0; i < 2; i = i + 1) { int n; print(n); n = 5; } }
