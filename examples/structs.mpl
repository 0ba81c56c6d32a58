// A struct is stored, copied and passed as a whole; what a function does to its
// formals its caller doesn't see.
struct point { int x, y; };
struct path { int length; int step[3]; };

point moved(point p, int by) {
  p.x = p.x + by;
  return p;
}

int main() {
  point a;
  a.x = 1;
  a.y = 2;
  point b = moved(a, 10);
  print(a.x, a.y, b.x, b.y);
  path p;
  p.step[1] = 4;
  p.length = p.step[0] + p.step[1];
  print(p.length);
}
