/** Counts of 0: below them nothing is made, whatever the other counts are, but each is looked at. */
public class NoRows {
    static int made;

    static int count(int n) {
        made++;
        return n;
    }

    static long lengths(int[][][] rows) {
        long lengths = rows.length;
        for (int[][] row : rows) {
            lengths = lengths * 100L + row.length;
            for (int[] below : row) {
                lengths = lengths * 100L + below.length;
            }
        }
        return lengths;
    }

    static void refused(int a, int b, int c) {
        try {
            int[][][] rows = new int[count(a)][count(b)][count(c)];
            System.out.println(lengths(rows));
        } catch (NegativeArraySizeException e) {
            System.out.println("negative");
        } finally {
            System.out.println(made);
        }
    }

    public static void main(String[] args) {
        int[][] none = new int[0][5];
        System.out.println(none.length);
        for (int[] row : none) {
            System.out.println(row.length);
        }
        Object[][] empty = new Object[4][0];
        System.out.println(empty.length);
        System.out.println(empty[3].length);
        System.out.println(empty[0] == empty[3] ? 1 : 0);
        byte[][][] large = new byte[2][0][Integer.MAX_VALUE];
        System.out.println(large[1].length);
        String[][][][] largest = new String[0][Integer.MAX_VALUE][Integer.MAX_VALUE][Integer.MAX_VALUE];
        System.out.println(largest.length);
        refused(2, 1, 3);
        refused(2, 0, 3);
        refused(0, 2, 3);
        refused(0, 2, -1);
        refused(0, -2, 1);
        refused(-1, 0, 0);
        refused(2, 2, Integer.MIN_VALUE);
        try {
            System.out.println(none[0].length);
        } catch (ArrayIndexOutOfBoundsException e) {
            System.out.println("no row");
        }
    }
}
