int main() {
print(1);
print(9223372036854775807 + 1);
print(2);
}
