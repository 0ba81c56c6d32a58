// The elements of an array are counted from 0, and an index beyond them is a trap.
// The primes below 30 are what is left when the multiples of each are crossed out.
int main() {
  bool crossed[30];
  int found = 0, last = 0;
  for (int n = 2; n < 30; n = n + 1) {
    if (!crossed[n]) {
      found = found + 1;
      last = n;
      for (int k = n * n; k < 30; k = k + n) crossed[k] = true;
    }
  }
  print(found, last);
}
