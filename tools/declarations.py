"""Sources of declarations of all kinds, for mentat, luac and python3, which are as long as each other and of the like."""
import os

# Each block has names of its own.
forms = {
    "mentat": """struct point@ { int x, y; int cells[4]; };
regular mentat class calc@ {
  int square(int x) { rtf(x * x); }
  int most(int x, int y) { if (x < y) { rtf(y); } else { rtf(x); } }
  int both(int x) { calc@ w; int a = w.square(x); rtf(w.most(a, w.square(x + 1))); }
};
persistent mentat class cell@ {
  int count, last;
  void put(int x) { count = count + 1; last = x; }
  int get() { rtf(last); }
  select { priority 1 : guard (count > 0) accept get; priority 0 : accept put; }
};
int sum@(int n, int k) {
  int s = 0;
  for (int i = 0; i < n && s < 1000; i = i + 1) {
    if (i % 2 == 0) s = s + i * k; else s = s - (i + k) / 2;
  }
  while (!(s < 100 || s == n)) { s = s - 1; }
  return s;
}
int pick@(int a) {
  point@ p;
  p.x = sum@(a, 3);
  p.cells[1] = p.x + -a;
  return p.cells[(p.y + sum@(1, 2)) % 4];
}
""",
    "luac": """local point@ = { x = 0, y = 0, cells = { 0, 0, 0, 0 } }
local calc@ = {
  square = function(x) return x * x end,
  most = function(x, y) if x < y then return y else return x end end,
}
function calc@.both(x) local a = calc@.square(x); return calc@.most(a, calc@.square(x + 1)) end
local cell@ = { count = 0, last = 0 }
function cell@:put(x) self.count = self.count + 1; self.last = x end
function cell@:get() return self.last end
function cell@:select() if self.count > 0 then return self.get else return self.put end end
function sum@(n, k)
  local s = 0
  for i = 0, n - 1 do
    if i % 2 == 0 then s = s + i * k else s = s - (i + k) // 2 end
  end
  while not (s < 100 or s == n) do s = s - 1 end
  return s
end
function pick@(a)
  local p = point@
  p.x = sum@(a, 3)
  p.cells[1] = p.x + -a
  return p.cells[(p.y + sum@(1, 2)) % 4]
end
""",
    "python3": """class Point@:
    def __init__(self): self.x = 0; self.y = 0; self.cells = [0, 0, 0, 0]
class Calc@:
    def square(self, x): return x * x
    def most(self, x, y): return y if x < y else x
    def both(self, x): a = self.square(x); return self.most(a, self.square(x + 1))
class Cell@:
    def put(self, x): self.count = self.count + 1; self.last = x
    def get(self): return self.last
    def select(self): return self.get if self.count > 0 else self.put
def sum@(n, k):
    s = 0
    for i in range(n):
        if i % 2 == 0: s = s + i * k
        else: s = s - (i + k) // 2
    while not (s < 100 or s == n): s = s - 1
    return s
def pick@(a):
    p = Point@()
    p.x = sum@(a, 3)
    p.cells[1] = p.x + -a
    return p.cells[(p.y + sum@(1, 2)) % 4]
""",
}
ends = {"mentat": "int main() { }\n", "luac": "", "python3": ""}


def written(name, limit, folder):
    """A file of declarations, as many as fit. luac has room for 200 local names in a block, so each has its own."""
    block, at = forms[name], 0
    pieces, size = [], len(ends[name])
    while True:
        piece = block.replace("@", str(at))
        if name == "luac":
            piece = "do\n" + piece + "end\n"
        if size + len(piece) > limit:
            break
        pieces.append(piece)
        size += len(piece)
        at += 1
    file = os.path.join(folder, f"forms.{name}")
    with open(file, "w") as f:
        f.write("".join(pieces) + ends[name])
    return file, size
