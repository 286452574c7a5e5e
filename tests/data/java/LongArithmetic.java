/** Every operation of long, comparisons and conversions too. */
public class LongArithmetic {
    static long mix(long a, long b) {
        return (a + b) * (a - b) ^ (a & b) | ~a;
    }

    static long divide(long a, long b) {
        return a / b * 1000L + a % b;
    }

    static long shifts(long a, int count) {
        return (a << count) + (a >> count) + (a >>> count);
    }

    static int compare(long a, long b) {
        if (a < b) {
            return -1;
        }
        return a > b ? 1 : 0;
    }

    static long power(long base, int exponent) {
        long result = 1L;
        long square = base;
        for (int left = exponent; left != 0; left >>>= 1) {
            if ((left & 1) == 1) {
                result *= square;
            }
            square *= square;
        }
        return result;
    }

    public static void main(String[] args) {
        System.out.println(mix(0x123456789ABCDEFL, -2L));
        System.out.println(divide(Long.MIN_VALUE, -1L));
        System.out.println(shifts(-9876543210L, 65));
        System.out.println(compare(Long.MIN_VALUE, Long.MAX_VALUE));
        System.out.println(power(3L, 39));
        System.out.println((int) power(3L, 39));
        System.out.println((long) (char) -1);
        System.out.println(-Long.MIN_VALUE);
    }
}
