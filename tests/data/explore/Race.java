/** Two threads raise a counter without a lock. The one that ends last prints it. */
public class Race {
    public static void main(String[] args) {
        Counter counter = new Counter();
        new Raiser(counter).start();
        new Raiser(counter).start();
    }
}

class Counter {
    private int count;
    private int ended;

    void raise() {
        count = count + 1;
    }

    synchronized void end() {
        ended = ended + 1;
        if (ended == 2) {
            System.out.println(count);
        }
    }
}

class Raiser extends Thread {
    private final Counter counter;

    Raiser(Counter counter) {
        this.counter = counter;
    }

    public void run() {
        counter.raise();
        counter.end();
    }
}
