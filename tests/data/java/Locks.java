/** Synchronized blocks and methods, monitors entered again, and left by an exception. */
public class Locks {
    private final Object lock = new Object();
    private int count;

    synchronized int grow(int by) {
        count += by;
        return by > 0 ? grow(by - 1) : count;
    }

    int guarded(int divisor) {
        synchronized (lock) {
            synchronized (this) {
                return count / divisor;
            }
        }
    }

    void fail() {
        synchronized (lock) {
            throw new IllegalArgumentException();
        }
    }

    protected final synchronized long wide(long n) {
        synchronized (this) {
            n += count;
        }
        return n;
    }

    public static void main(String[] args) {
        Locks locks = new Locks();
        System.out.println(locks.grow(4));
        System.out.println(locks.guarded(3));
        try {
            locks.guarded(0);
        } catch (ArithmeticException e) {
            System.out.println("divided");
        }
        try {
            locks.fail();
        } catch (IllegalArgumentException e) {
            System.out.println("failed");
        }
        System.out.println(locks.wide(1L << 50));
    }
}
