/** Loops in loops: the table of products up to five times five. */
public class Table {
    public static void main(String[] args) {
        for (int row = 1; row <= 5; row++) {
            int column = 1;
            while (column <= 5) {
                System.out.print(row * column);
                System.out.print(column < 5 ? ' ' : '\n');
                column++;
            }
        }
    }
}
