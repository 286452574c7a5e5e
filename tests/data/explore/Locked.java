/** Two threads raise a counter under its lock. The one that ends last prints it. */
public class Locked {
    public static void main(String[] args) {
        LockedCounter counter = new LockedCounter();
        new LockedRaiser(counter).start();
        new LockedRaiser(counter).start();
    }
}

class LockedCounter {
    private int count;
    private int ended;

    synchronized void raise() {
        count = count + 1;
    }

    synchronized void end() {
        ended = ended + 1;
        if (ended == 2) {
            System.out.println(count);
        }
    }
}

class LockedRaiser extends Thread {
    private final LockedCounter counter;

    LockedRaiser(LockedCounter counter) {
        this.counter = counter;
    }

    public void run() {
        counter.raise();
        counter.end();
    }
}
