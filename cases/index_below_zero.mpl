int main() { int a[3];
print(a[0 - 1]); }
