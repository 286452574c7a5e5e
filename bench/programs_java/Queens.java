/** All placings of eight queens on a board, again and again, by recursion over rows with arrays of marks. */
class Queens {
    int size, solutions;
    boolean[] column, rising, falling;

    Queens(int size) {
        this.size = size;
        column = new boolean[size];
        rising = new boolean[2 * size];
        falling = new boolean[2 * size];
    }

    void place(int row) {
        if (row == size) {
            solutions++;
            return;
        }
        for (int c = 0; c < size; c++) {
            int up = row + c, down = row - c + size;
            if (column[c] || rising[up] || falling[down]) {
                continue;
            }
            column[c] = rising[up] = falling[down] = true;
            place(row + 1);
            column[c] = rising[up] = falling[down] = false;
        }
    }

    public static void main(String[] arguments) {
        int sum = 0;
        for (int round = Size.of(); round > 0; round--) {
            Queens queens = new Queens(8);
            queens.place(0);
            sum += queens.solutions;
        }
        System.out.println(sum);
    }
}
