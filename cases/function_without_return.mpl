int f(int x) {
  if (x > 1) return x;
}
int main() { print(f(2)); print(f(1)); }
