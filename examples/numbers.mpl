int main() {
  print(1 + 2 * 3, 4 - 5);
  print(6 * 7);
  print(10 - 2 - 3, 2 * 3 * 4);
}
