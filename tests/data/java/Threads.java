/** Threads that share a counter, each with the lock held. */
public class Threads extends Thread {
    private final Counter counter;
    private final int times;

    Threads(Counter counter, int times) {
        this.counter = counter;
        this.times = times;
    }

    @Override
    public void run() {
        for (int i = 0; i < times; i++) {
            counter.add(i);
        }
        counter.finish();
    }

    static class Counter {
        private long sum;
        private volatile int left;

        Counter(int left) {
            this.left = left;
        }

        synchronized void add(int n) {
            sum += n;
        }

        void finish() {
            synchronized (this) {
                if (--left == 0) {
                    System.out.println(sum);
                }
            }
        }
    }

    public static void main(String[] args) {
        Counter counter = new Counter(3);
        Threads first = new Threads(counter, 10);
        Threads second = new Threads(counter, 20);
        first.start();
        second.start();
        new Threads(counter, 30).start();
        try {
            first.start();
        } catch (IllegalThreadStateException e) {
            counter.add(1);
        }
    }
}
