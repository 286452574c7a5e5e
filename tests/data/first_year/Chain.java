/** A recursion of a thousand calls, which has an end. */
public class Chain {
    static int sumTo(int n) {
        return n == 0 ? 0 : n + sumTo(n - 1);
    }

    public static void main(String[] args) {
        System.out.println(sumTo(100));
        System.out.println(sumTo(1000));
    }
}
