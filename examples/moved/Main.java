// A till: what it has taken, and how many sales that were.
class Main {
  private long taken;
  private long sales;

  public long sell(long price) {
    taken = taken + price;
    sales = sales + 1;
    return taken;
  }

  public long count() {
    return sales;
  }
}
