awk 'BEGIN { printf "%s", "int main() { print(1"; for (i = 0; i < 62; i++) { s = " + 1"; gsub(/#/, "n" i, s); printf "%s", s } printf "%s", "); }" }'
