/** Two threads that count together and take no lock: an addition can be lost. The last one prints the sum. */
public class LostCount extends Thread {
    private static final int[] running = {2};
    private static int sum;

    @Override
    public void run() {
        for (int i = 0; i < 1000; i++) {
            sum = sum + 1;
        }
        synchronized (running) {
            running[0]--;
            if (running[0] == 0) {
                System.out.println(sum);
            }
        }
    }

    public static void main(String[] args) {
        new LostCount().start();
        new LostCount().start();
    }
}
