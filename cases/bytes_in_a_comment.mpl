// é
int main() { }