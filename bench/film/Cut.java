/** A list of ten that is cut in the middle, twice over; what is cut off is collected. */
public class Cut {
    final int number;
    Cut next;

    Cut(int number, Cut next) {
        this.number = number;
        this.next = next;
    }

    public static void main(String[] args) {
        for (int round = 0; round < 2; round++) {
            Cut list = null;
            for (int i = 10; i > 0; i--) {
                list = new Cut(i, list);
            }
            Cut middle = list.next.next.next.next;
            middle.next = null;
            int sum = 0;
            for (Cut c = list; c != null; c = c.next) {
                sum += c.number;
            }
            System.out.println(sum);
        }
    }
}
