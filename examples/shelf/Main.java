// A shelf of boxes that grows: objects, arrays, texts, loops, calls and prints.
class Box {
  String label;
  int weight;

  boolean isHeavy(int limit) {
    return weight > limit;
  }
}

public class Main {
  Box[] boxes;
  int count;

  private void grow() {
    Box[] larger = new Box[2 * count + 4];
    for (int i = 0; i < count; i++) {
      larger[i] = boxes[i];
    }
    boxes = larger;
  }

  public int add(String label, int weight) {
    if (boxes == null || count == boxes.length) {
      grow();
    }
    Box box = new Box();
    box.label = label;
    box.weight = weight;
    boxes[count] = box;
    count = count + 1;
    return count;
  }

  public long heavy(int limit) {
    long sum = 0;
    for (int i = 0; i < count; i++) {
      Box box = boxes[i];
      if (box.isHeavy(limit)) {
        System.out.println(box.label + " weighs " + box.weight);
        sum = sum + box.weight;
      }
    }
    return sum;
  }
}
