// Reads how many numbers there are, and then these, and prints the largest.
int main() {
  int count = input();
  int largest = input();
  for (int i = 1; i < count; i = i + 1) {
    int next = input();
    if (next > largest) largest = next;
  }
  print(largest);
}
