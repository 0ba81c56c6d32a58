// A local begins with zeros, unless it has an initialiser. A name is known from
// its declaration to the end of its block, and an inner one hides an outer one.
int main() {
  int a = 1, b;
  {
    int a = 7;
    b = a;
  }
  print(a, b);
  bool done;
  print(done);
}
