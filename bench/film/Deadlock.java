/** Two threads enter two monitors, each the other's first. */
public class Deadlock extends Thread {
    static final Object LEFT = new Object();
    static final Object RIGHT = new Object();

    final Object first;
    final Object second;

    Deadlock(Object first, Object second) {
        this.first = first;
        this.second = second;
    }

    public void run() {
        synchronized (first) {
            synchronized (second) {
                System.out.println("both");
            }
        }
    }

    public static void main(String[] args) {
        new Deadlock(LEFT, RIGHT).start();
        new Deadlock(RIGHT, LEFT).start();
    }
}
