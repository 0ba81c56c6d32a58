// An else goes with the nearest if that has none.
int main() {
  int n = 5;
  if (n < 3) print(1);
  else if (n < 7) print(2);
  else print(3);
  if (n > 1)
    if (n > 9) print(4);
    else print(5);
}
