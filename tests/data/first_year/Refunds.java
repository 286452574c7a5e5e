/** Exceptions: one of the program's own, one of Java's, and what is done at the end in any case. */
public class Refunds {
    static class TooMuch extends Exception {
        final int missing;

        TooMuch(int missing) {
            this.missing = missing;
        }
    }

    static int rest(int paid, int price) throws TooMuch {
        if (price > paid) {
            throw new TooMuch(price - paid);
        }
        return paid - price;
    }

    static void buy(int[] coins, int at, int price) {
        try {
            System.out.println(rest(coins[at], price));
        } catch (TooMuch e) {
            System.out.print("missing: ");
            System.out.println(e.missing);
        } catch (ArrayIndexOutOfBoundsException e) {
            System.out.println("no such coin");
        } finally {
            System.out.println("next");
        }
    }

    public static void main(String[] args) {
        int[] coins = {5, 10};
        buy(coins, 0, 3);
        buy(coins, 1, 12);
        buy(coins, 2, 1);
    }
}
