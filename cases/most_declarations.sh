awk 'BEGIN { printf "%s", ""; for (i = 0; i < 4095; i++) { s = "regular mentat class # { };"; gsub(/#/, "n" i, s); printf "%s", s } printf "%s", "int main() { }" }'
