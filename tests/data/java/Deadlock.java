/** Two threads, each with the monitor that the other waits for, by whatever turns they take. */
public class Deadlock extends Thread {
    private static final Object FIRST = new Object();
    private static final Object SECOND = new Object();
    private static volatile boolean taken;

    @Override
    public void run() {
        synchronized (SECOND) {
            taken = true;
            System.out.println("the second is taken");
            synchronized (FIRST) {
                System.out.println("never");
            }
        }
    }

    public static void main(String[] args) {
        synchronized (FIRST) {
            System.out.println("the first is taken");
            new Deadlock().start();
            while (!taken) {
                continue;
            }
            synchronized (SECOND) {
                System.out.println("never");
            }
        }
    }
}
