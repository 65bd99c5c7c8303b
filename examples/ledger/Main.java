// A ledger of accounts. A transfer that fails half way is undone, with all that it wrote and printed.
class Account {
  String owner;
  long balance;
  int[] moves;
  int count;

  public void open(String name) {
    owner = name;
    moves = new int[3];
  }

  public void move(int amount) {
    moves[count] = amount;
    count = count + 1;
    balance = balance + amount;
  }

  public int largest() {
    int best = 0;
    for (int i = 0; i < count; i++) {
      if (moves[i] > best) {
        best = moves[i];
      }
    }
    return best;
  }
}

public class Main {
  Account[] accounts;
  int size;

  public int open(String owner) {
    if (accounts == null) {
      accounts = new Account[2];
    }
    Account account = new Account();
    account.open(owner);
    accounts[size] = account;
    size = size + 1;
    return size;
  }

  private Account find(String owner) {
    for (int i = 0; i < size; i++) {
      if (accounts[i].owner.equals(owner)) {
        return accounts[i];
      }
    }
    return null;
  }

  public long transfer(String from, String to, int amount) {
    Account giver = find(from);
    giver.move(-amount);
    System.out.println(from + " gives " + amount);
    Account taker = find(to);
    taker.move(amount);
    System.out.println(to + " has " + taker.balance);
    return taker.balance;
  }

  public String report(String owner) {
    Account account = find(owner);
    return owner + ": " + account.balance + ", largest " + account.largest();
  }
}
