awk 'BEGIN { printf "%s", "regular mentat class c { int f(int x) { rtf(x"; for (i = 0; i < 61; i++) { s = " - x"; gsub(/#/, "n" i, s); printf "%s", s } printf "%s", "); } }; int main() { }" }'
