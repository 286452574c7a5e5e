/** for, while, do, labels, break and continue. */
public class Loops {
    static int primes(int limit) {
        int count = 0;
        next:
        for (int n = 2; n < limit; n++) {
            for (int d = 2; d * d <= n; d++) {
                if (n % d == 0) {
                    continue next;
                }
            }
            count++;
        }
        return count;
    }

    static int collatz(int n) {
        int steps = 0;
        while (n != 1) {
            n = n % 2 == 0 ? n / 2 : 3 * n + 1;
            steps++;
        }
        return steps;
    }

    static int digits(long n) {
        int count = 0;
        do {
            n /= 10;
            count++;
        } while (n != 0);
        return count;
    }

    static int find(int[] xs, int x) {
        int at = -1;
        search:
        {
            for (int i = 0; i < xs.length; i++) {
                if (xs[i] == x) {
                    at = i;
                    break search;
                }
            }
            at = -2;
        }
        return at;
    }

    public static void main(String[] args) {
        System.out.println(primes(100));
        System.out.println(collatz(27));
        System.out.println(digits(-1234567890123L));
        System.out.println(find(new int[] {4, 8, 15, 16, 23, 42}, 16));
    }
}
