// The sum overflows inside the member. Nobody asks for the result, so nobody is told.
regular mentat class calc {
  int add(int x, int y) { rtf(x + y); }
};
int main() {
  calc w;
  int a = w.add(9223372036854775807, 1);
  print(1);
}
