// A type error: `find` gives a text, where its method gives a number.
class Main {
  String[] names;

  public int find(String name) {
    for (int i = 0; i < names.length; i++) {
      if (names[i].equals(name)) {
        return names[i];
      }
    }
    return -1;
  }
}
