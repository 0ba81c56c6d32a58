awk 'BEGIN { printf "%s", "regular mentat class c { int f(int a"; for (i = 0; i < 15; i++) { s = ", int #"; gsub(/#/, "n" i, s); printf "%s", s } printf "%s", ") { rtf(a); } }; int main() { }" }'
