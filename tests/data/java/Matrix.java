/** Matrices as arrays of arrays, with ragged rows. */
public class Matrix {
    final long[][] rows;

    Matrix(int height, int width) {
        rows = new long[height][];
        for (int i = 0; i < height; i++) {
            rows[i] = new long[width];
        }
    }

    Matrix times(Matrix other) {
        Matrix result = new Matrix(rows.length, other.rows[0].length);
        for (int i = 0; i < rows.length; i++) {
            for (int j = 0; j < other.rows[0].length; j++) {
                for (int k = 0; k < other.rows.length; k++) {
                    result.rows[i][j] += rows[i][k] * other.rows[k][j];
                }
            }
        }
        return result;
    }

    static int[][] triangle(int height) {
        int[][] triangle = new int[height][];
        for (int i = 0; i < height; i++) {
            triangle[i] = new int[i + 1];
            triangle[i][0] = triangle[i][i] = 1;
            for (int j = 1; j < i; j++) {
                triangle[i][j] = triangle[i - 1][j - 1] + triangle[i - 1][j];
            }
        }
        return triangle;
    }

    public static void main(String[] args) {
        Matrix step = new Matrix(2, 2);
        step.rows[0][0] = step.rows[0][1] = step.rows[1][0] = 1L;
        Matrix power = step;
        for (int i = 0; i < 6; i++) {
            power = power.times(power);
        }
        System.out.println(power.rows[0][1]);
        for (int n : triangle(6)[5]) {
            System.out.print(n);
            System.out.print(' ');
        }
        System.out.println();
    }
}
