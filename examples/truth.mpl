// The right side of && and || is left out where the left side decides, so nothing
// is divided by 0 here.
int main() {
  int n = 0;
  bool small = n == 0 || 10 / n < 3;
  bool large = n != 0 && 10 / n > 3;
  print(small, large);
}
