// A while tests before each round. A for does its first part once, and its last
// part behind each round.
int main() {
  int n = 27, steps = 0;
  while (n != 1) {
    if (n % 2 == 0) n = n / 2;
    else n = 3 * n + 1;
    steps = steps + 1;
  }
  print(steps);
  int sum = 0;
  for (int i = 1; i <= 10; i = i + 1) sum = sum + i;
  print(sum);
}
