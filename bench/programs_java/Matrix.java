/** The product of two square matrices of longs, built row by row. */
class Matrix {
    static long[][] filled(int size, int first) {
        long[][] rows = new long[size][];
        long next = first;
        for (int i = 0; i < size; i++) {
            rows[i] = new long[size];
            for (int j = 0; j < size; j++) {
                rows[i][j] = next;
                next = (next * 5 + 3) % 1009;
            }
        }
        return rows;
    }

    static long[][] product(long[][] left, long[][] right) {
        int size = left.length;
        long[][] result = new long[size][];
        for (int i = 0; i < size; i++) {
            long[] row = new long[size];
            for (int j = 0; j < size; j++) {
                long sum = 0;
                for (int k = 0; k < size; k++) {
                    sum += left[i][k] * right[k][j];
                }
                row[j] = sum;
            }
            result[i] = row;
        }
        return result;
    }

    public static void main(String[] arguments) {
        int size = Size.of();
        long[][] result = product(filled(size, 1), filled(size, 2));
        long trace = 0;
        for (int i = 0; i < size; i++) {
            trace += result[i][i];
        }
        System.out.println(trace);
        System.out.println(result[0][size - 1]);
    }
}
