/** Life on a board without edges, which is made anew for each day, and a few tables that stay a while. */
public class Garbage {
    static boolean[][] day(boolean[][] board) {
        int height = board.length;
        int width = board[0].length;
        byte[][] beside = new byte[height][width];
        for (int y = 0; y < height; y++) {
            for (int x = 0; x < width; x++) {
                if (!board[y][x]) {
                    continue;
                }
                for (int i = height - 1; i <= height + 1; i++) {
                    for (int j = width - 1; j <= width + 1; j++) {
                        beside[(y + i) % height][(x + j) % width]++;
                    }
                }
            }
        }
        boolean[][] next = new boolean[height][width];
        for (int y = 0; y < height; y++) {
            for (int x = 0; x < width; x++) {
                next[y][x] = beside[y][x] == 3 || board[y][x] && beside[y][x] == 4;
            }
        }
        return next;
    }

    static void show(boolean[][] board) {
        for (boolean[] row : board) {
            for (boolean lives : row) {
                System.out.print(lives ? 'o' : '.');
            }
            System.out.println();
        }
    }

    public static void main(String[] args) {
        boolean[][] board = new boolean[7][9];
        board[0][1] = board[1][2] = board[2][0] = board[2][1] = board[2][2] = true;
        for (int day = 0; day < 60; day++) {
            board = day(board);
        }
        show(board);
        long[][][] kept = new long[4][1][1];
        long sum = 0;
        for (int i = 0; i < 400; i++) {
            long[][] table = new long[8][30];
            table[i % 8][29] = i;
            if (i % 3 == 0) {
                kept[i % 4] = table;
            }
            for (long[] row : kept[(i + 1) % 4]) {
                sum += row[row.length - 1];
            }
        }
        System.out.println(sum);
        for (long[][] table : kept) {
            for (long[] row : table) {
                for (long x : row) {
                    if (x != 0) System.out.println(x);
                }
            }
        }
    }
}
