/** Products of matrices, and the powers of one. */
public class Product {
    static long[][] product(long[][] a, long[][] b) {
        long[][] c = new long[a.length][b[0].length];
        for (int i = 0; i < a.length; i++) {
            for (int j = 0; j < b[0].length; j++) {
                for (int k = 0; k < b.length; k++) {
                    c[i][j] += a[i][k] * b[k][j];
                }
            }
        }
        return c;
    }

    static long[][] one(int size) {
        long[][] one = new long[size][size];
        for (int i = 0; i < size; i++) {
            one[i][i] = 1L;
        }
        return one;
    }

    static long[][] power(long[][] base, int exponent) {
        long[][] result = one(base.length);
        for (; exponent > 0; exponent >>= 1) {
            if ((exponent & 1) == 1) {
                result = product(result, base);
            }
            base = product(base, base);
        }
        return result;
    }

    static long[][] filled(int height, int width, int seed) {
        long[][] rows = new long[height][width];
        for (long[] row : rows) {
            for (int j = 0; j < width; j++) {
                seed = seed * 1103515245 + 12345;
                row[j] = (seed >>> 16) % 19 - 9;
            }
        }
        return rows;
    }

    static void print(long[][] rows) {
        for (long[] row : rows) {
            for (long x : row) {
                System.out.print(x);
                System.out.print(' ');
            }
            System.out.println();
        }
    }

    public static void main(String[] args) {
        print(product(filled(3, 4, 1), filled(4, 2, 2)));
        print(product(filled(2, 1, 3), filled(1, 5, 4)));
        long[][] step = new long[2][2];
        step[0][0] = step[0][1] = step[1][0] = 1L;
        System.out.println(power(step, 90)[0][1]);
        long[][] wrapped = power(filled(8, 8, 5), 40);
        System.out.println(wrapped[7][0]);
        System.out.println(wrapped[0][7]);
        System.out.println(one(3)[2].length);
    }
}
