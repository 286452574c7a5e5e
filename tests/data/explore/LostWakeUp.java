/** A thread goes to sleep unless there is a signal; another gives the signal and wakes who sleeps. */
public class LostWakeUp {
    public static void main(String[] args) {
        Bed bed = new Bed();
        new Waker(bed).start();
        bed.sleep();
        bed.end();
    }
}

class Bed {
    private boolean signal;
    private boolean asleep;
    private int ended;

    void sleep() {
        if (!signal) {
            asleep = true;
        }
    }

    void wake() {
        signal = true;
        if (asleep) {
            asleep = false;
        }
    }

    synchronized void end() {
        ended = ended + 1;
        if (ended == 2) {
            System.out.println(asleep ? "asleep" : "awake");
        }
    }
}

class Waker extends Thread {
    private final Bed bed;

    Waker(Bed bed) {
        this.bed = bed;
    }

    public void run() {
        bed.wake();
        bed.end();
    }
}
