/** A search tree that grows, for a picture: each number goes to its place by recursion. */
public class Numbers {
    final int number;
    Numbers less;
    Numbers more;

    Numbers(int number) {
        this.number = number;
    }

    void add(int n) {
        if (n < number) {
            if (less == null) {
                less = new Numbers(n);
            } else {
                less.add(n);
            }
        } else if (more == null) {
            more = new Numbers(n);
        } else {
            more.add(n);
        }
    }

    public static void main(String[] args) {
        Numbers tree = new Numbers(40);
        int[] numbers = {20, 60, 10, 30, 50, 70, 35};
        for (int n : numbers) {
            tree.add(n);
        }
    }
}
