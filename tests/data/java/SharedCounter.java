/** Workers that count with the monitor of a lock held, taken again inside of itself. */
public class SharedCounter extends Thread {
    private static final Object LOCK = new Object();
    private static int count;
    private static int left = 5;
    private final int times;

    SharedCounter(int times) {
        this.times = times;
    }

    private static void increment() {
        synchronized (LOCK) {
            int before = count;
            synchronized (LOCK) {
                count = before + 1;
            }
        }
    }

    @Override
    public synchronized void run() {
        for (int i = 0; i < times; i++) {
            increment();
        }
        synchronized (LOCK) {
            left--;
            if (left == 0) {
                System.out.println(count);
            }
        }
    }

    public static void main(String[] args) {
        for (int worker = 1; worker <= 5; worker++) {
            new SharedCounter(worker * 10).start();
        }
    }
}
