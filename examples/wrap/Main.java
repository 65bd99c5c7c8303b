// Sums and products wrap round as in Java: an int at 32 bits, a long at 64.
class Main {
  public long int_sum() {
    return 2147483647 + 1;
  }

  public long long_sum() {
    return 2147483647 + 1L;
  }

  public long next(long x) {
    return x + 1;
  }

  public long opposite(long x) {
    return -x;
  }

  public long square(long x) {
    return x * x;
  }
}
