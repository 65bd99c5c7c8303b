// Four notes of a place, on four lines.
class Main {
  private long north;
  private long east;
  private long south;
  private long west;

  public void note(long up, long right) {
    north = up;
    east = right;
    south = -up;
    west = -right;
  }
}
