/** Threads with synchronized: three sellers sell from one roll, and no ticket is sold twice. */
public class Tickets {
    private int left = 60;
    private int sold;
    private int sellers = 3;

    synchronized boolean sell() {
        if (left == 0) {
            return false;
        }
        left--;
        sold++;
        return true;
    }

    synchronized void goHome() {
        sellers--;
        if (sellers == 0) {
            System.out.print("sold: ");
            System.out.println(sold);
        }
    }

    public static void main(String[] args) {
        Tickets roll = new Tickets();
        for (int i = 0; i < 3; i++) {
            new Seller(roll).start();
        }
    }
}

class Seller extends Thread {
    private final Tickets roll;

    Seller(Tickets roll) {
        this.roll = roll;
    }

    public void run() {
        while (roll.sell()) {
        }
        roll.goHome();
    }
}
