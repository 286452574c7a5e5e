/** A count below 0, in a method that does not expect it. */
public class Below {
    static String[][] table(int height, int width) {
        return new String[height][width];
    }

    static int cells(String[][] table) {
        int cells = 0;
        for (String[] row : table) {
            cells += row.length;
        }
        return cells;
    }

    public static void main(String[] args) {
        for (int width = 3; ; width -= 2) {
            try {
                System.out.println(cells(table(4, width)));
            } finally {
                System.out.println(width);
            }
        }
    }
}
