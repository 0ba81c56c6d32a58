awk 'BEGIN { printf "%s", "regular mentat class c {"; for (i = 0; i < 64; i++) { s = "int #() { rtf(1); }"; gsub(/#/, "n" i, s); printf "%s", s } printf "%s", "}; int main() { }" }'
