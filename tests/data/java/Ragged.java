/** Rows of different lengths, rows that are not there, and rows without elements. */
public class Ragged {
    static int sum(int[][] rows) {
        int sum = 0;
        for (int[] row : rows) {
            if (row == null) {
                continue;
            }
            for (int x : row) {
                sum += x;
            }
        }
        return sum;
    }

    static int missing(Object[] rows) {
        int missing = 0;
        for (Object row : rows) {
            if (row == null) missing++;
        }
        return missing;
    }

    static char[][] words(String text) {
        char[][] words = new char[8][0];
        int word = 0;
        for (int from = 0, to = 0; to <= text.length(); to++) {
            if (to < text.length() && text.charAt(to) != ' ') {
                continue;
            }
            words[word] = new char[to - from];
            for (int i = from; i < to; i++) {
                words[word][i - from] = text.charAt(i);
            }
            word++;
            from = to + 1;
        }
        return words;
    }

    public static void main(String[] args) {
        int[][] rows = new int[3][];
        System.out.println(missing(rows));
        rows[0] = new int[] {1, 2, 3};
        rows[2] = new int[5];
        for (int i = 0; i < rows[2].length; i++) {
            rows[2][i] = i * i;
        }
        System.out.println(missing(rows));
        System.out.println(sum(rows));
        long[][] none = new long[2][0];
        System.out.println(none.length);
        System.out.println(none[1].length);
        none[1] = new long[] {7L, 8L};
        System.out.println(none[1][1]);
        String[][][] names = new String[2][3][];
        System.out.println(missing(names));
        System.out.println(missing(names[1]));
        names[1][2] = new String[] {"a name", null};
        System.out.println(names[1][2][0]);
        System.out.println(names[1][2][1]);
        System.out.println(missing(names[1]));
        for (char[] word : words("words of other lengths")) {
            System.out.print(word.length);
            System.out.print(' ');
            for (int i = word.length; i-- > 0;) {
                System.out.print(word[i]);
            }
            System.out.println();
        }
        int[][] triangle = new int[6][1];
        for (int i = 0; i < 6; i++) {
            if (i > 0) triangle[i] = new int[i + 1];
            triangle[i][0] = triangle[i][i] = 1;
            for (int j = 1; j < i; j++) {
                triangle[i][j] = triangle[i - 1][j - 1] + triangle[i - 1][j];
            }
        }
        System.out.println(sum(triangle));
        try {
            System.out.println((new int[2][2][][])[1][0][0].length);
        } catch (NullPointerException e) {
            System.out.println("not there");
        }
    }
}
