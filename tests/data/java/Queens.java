/** Placing queens on a board by trying, with bits and with an array. */
public class Queens {
    static int placed(int size, int row, int columns, int down, int up) {
        if (row == size) {
            return 1;
        }
        int count = 0;
        for (int free = ~(columns | down | up) & (1 << size) - 1; free != 0; free &= free - 1) {
            int bit = free & -free;
            count += placed(size, row + 1, columns | bit, (down | bit) << 1, (up | bit) >> 1);
        }
        return count;
    }

    static boolean first(int[] queens, int row) {
        if (row == queens.length) {
            return true;
        }
        column:
        for (int column = 0; column < queens.length; column++) {
            for (int above = 0; above < row; above++) {
                int apart = queens[above] - column;
                if (apart == 0 || apart == row - above || apart == above - row) {
                    continue column;
                }
            }
            queens[row] = column;
            if (first(queens, row + 1)) {
                return true;
            }
        }
        return false;
    }

    public static void main(String[] args) {
        System.out.println(placed(5, 0, 0, 0, 0));
        int[] queens = new int[6];
        if (first(queens, 0)) {
            for (int queen : queens) {
                System.out.print(queen);
            }
        }
        System.out.println();
    }
}
