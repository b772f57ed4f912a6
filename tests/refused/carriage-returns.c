int main() {
  return y;
}
