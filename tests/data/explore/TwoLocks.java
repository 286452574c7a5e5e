/** Two threads take two locks, each in its own order. */
public class TwoLocks {
    public static void main(String[] args) {
        Object first = new Object();
        Object second = new Object();
        new Taker(first, second).start();
        new Taker(second, first).start();
    }
}

class Taker extends Thread {
    private final Object outer;
    private final Object inner;

    Taker(Object outer, Object inner) {
        this.outer = outer;
        this.inner = inner;
    }

    public void run() {
        synchronized (outer) {
            synchronized (inner) {
                System.out.println("both");
            }
        }
    }
}
