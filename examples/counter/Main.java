// A counter with a step. Each field begins at 0.
class Main {
  private long count;
  long step;

  public void by(long n) {
    step = n;
  }

  public long next() {
    count = count + step;
    return count;
  }

  // Goes some steps at once, and gives how far that was.
  public long skip(long steps) {
    long from = count;
    count = from + steps * step;
    return count - from;
  }
}
