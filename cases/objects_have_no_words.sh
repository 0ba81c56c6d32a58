awk 'BEGIN { printf "%s", "regular mentat class c { }; int main() {"; for (i = 0; i < 1025; i++) { s = "c #;"; gsub(/#/, "n" i, s); printf "%s", s } printf "%s", "}" }'
