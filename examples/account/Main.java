// An account in whole cents. A percent of a cent is a hundredth of it, so the interest is kept in
// hundredths of a cent, and nothing is rounded.
class Main {
  private long cents;
  private long hundredths;

  public long deposit(long amount) {
    cents = cents + amount;
    return cents;
  }

  public long withdraw(long amount, long fee) {
    cents = cents - (amount + fee);
    return cents;
  }

  // A year's simple interest on what stands there.
  public void year(long percent) {
    hundredths = hundredths + cents * percent;
  }

  // All that is owed, in hundredths of a cent.
  public long owed() {
    long whole = cents * 100;
    return whole + hundredths;
  }
}
