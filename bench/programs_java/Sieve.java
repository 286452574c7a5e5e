/** The sieve of Eratosthenes on an array of booleans, again and again. */
class Sieve {
    static int primes;

    static long sieve(int size) {
        boolean[] composite = new boolean[size + 1];
        long sum = 0;
        for (int i = 2; i <= size; i++) {
            if (!composite[i]) {
                primes++;
                sum += i;
                for (long j = (long) i * i; j <= size; j += i) {
                    composite[(int) j] = true;
                }
            }
        }
        return sum;
    }

    public static void main(String[] arguments) {
        long sum = 0;
        primes = 0;
        for (int round = Size.of(); round > 0; round--) {
            sum += sieve(10000 + round);
        }
        System.out.println(primes);
        System.out.println(sum);
    }
}
