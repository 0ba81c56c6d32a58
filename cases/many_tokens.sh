awk 'BEGIN { printf "%s", "int main() {"; for (i = 0; i < 12000; i++) { s = "print(1);"; gsub(/#/, "n" i, s); printf "%s", s } printf "%s", "}" }'
