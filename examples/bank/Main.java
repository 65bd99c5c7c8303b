CREATE TABLE account (id LONG, owner TEXT, balance LONG);

// Accounts in a table, and payments between them.
class Main {
  long count;

  // The amount that was paid; 0 where the payer has too little, -1 where there is no such account.
  public long transfer(long from, long to, long amount) {
    ResultSet a = Db.query("SELECT balance FROM account WHERE id = ?", from);
    if (!a.next()) {
      return -1;
    }
    long have = a.getLong(1);
    if (have < amount) {
      System.out.println("short by " + (amount - have));
      return 0;
    }
    ResultSet b = Db.query("SELECT balance FROM account WHERE id = ?", to);
    if (!b.next()) {
      return -1;
    }
    Db.update("UPDATE account SET balance = ? WHERE id = ?", have - amount, from);
    Db.update("UPDATE account SET balance = ? WHERE id = ?", b.getLong(1) + amount, to);
    count = count + 1;
    return amount;
  }

  public int open(long id, String owner) {
    return Db.update("INSERT INTO account VALUES (?, ?, ?)", id, owner, 0);
  }

  // What an owner has in all accounts.
  public long wealth(String owner) {
    long sum = 0;
    ResultSet all = Db.query("SELECT balance, id FROM account WHERE owner = ? ORDER BY id", owner);
    while (all.next()) {
      System.out.println(all.getLong(2) + ": " + all.getLong(1));
      sum += all.getLong(1);
    }
    return sum;
  }
}
