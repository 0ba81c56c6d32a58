int down(int n) { if (n == 0) return 0; return down(n - 1) + 1; }
int main() { print(down(400000)); }
