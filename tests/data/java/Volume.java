/** Arrays of three and four dimensions, and sums over their planes. */
public class Volume {
    static int[][][] filled(int a, int b, int c) {
        int[][][] cube = new int[a][b][c];
        for (int i = 0; i < a; i++) {
            for (int j = 0; j < b; j++) {
                for (int k = 0; k < c; k++) {
                    cube[i][j][k] = (i + 1) * 100 + (j + 1) * 10 + k + 1;
                }
            }
        }
        return cube;
    }

    static int[][] plane(int[][][] cube) {
        int[][] sums = new int[cube[0].length][cube[0][0].length];
        for (int[][] layer : cube) {
            for (int j = 0; j < layer.length; j++) {
                for (int k = 0; k < layer[j].length; k++) {
                    sums[j][k] += layer[j][k];
                }
            }
        }
        return sums;
    }

    static int different(Object[][] rows) {
        int different = 0;
        for (int i = 0; i < rows.length; i++) {
            for (int j = 0; j < rows[i].length; j++) {
                boolean found = false;
                for (int k = 0; k < i; k++) {
                    for (int l = 0; l < rows[k].length; l++) {
                        found |= rows[k][l] == rows[i][j];
                    }
                }
                for (int l = 0; l < j; l++) {
                    found |= rows[i][l] == rows[i][j];
                }
                if (!found) different++;
            }
        }
        return different;
    }

    public static void main(String[] args) {
        int[][][] cube = filled(3, 4, 5);
        for (int[] row : plane(cube)) {
            for (int sum : row) {
                System.out.print(sum);
                System.out.print(' ');
            }
            System.out.println();
        }
        System.out.println(different(cube));
        byte[][][][] bytes = new byte[2][3][4][9];
        for (byte[][][] space : bytes) {
            for (byte[][] layer : space) {
                for (byte[] row : layer) {
                    for (int i = 0; i < row.length; i++) {
                        row[i] += 29 * i;
                    }
                }
            }
        }
        System.out.println(bytes[1][2][3][8]);
        System.out.println(bytes[0][0][0][4]);
        Object layers = new long[2][2][2];
        System.out.println(layers instanceof Object[][] ? 1 : 0);
        System.out.println(layers instanceof long[][] ? 1 : 0);
        ((long[][][]) layers)[1][1][1] = 1L << 40;
        System.out.println(((long[][][]) layers)[1][1][1]);
        System.out.println(((long[][]) ((Object[]) layers)[0])[1][1]);
        cube[2] = new int[1][1];
        System.out.println(cube[2].length * 10 + cube[1].length);
        try {
            cube[2][0][1] = 5;
        } catch (ArrayIndexOutOfBoundsException e) {
            System.out.println("short rows");
        }
        try {
            ((Object[]) cube)[0] = new long[4][5];
        } catch (ArrayStoreException e) {
            System.out.println("no rows of longs");
        }
    }
}
