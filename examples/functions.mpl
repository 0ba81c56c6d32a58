// A plain function runs where it is called, with variables of its own, and may
// call itself. It has to come to a return.
int gcd(int a, int b) {
  if (b == 0) return a;
  return gcd(b, a % b);
}

int factorial(int n) {
  if (n < 2) return 1;
  return n * factorial(n - 1);
}

int main() {
  print(gcd(1071, 462), factorial(20));
}
