/** Floyd's shortest ways between all towns, and where each way goes next. */
public class Floyd {
    static final int FAR = Integer.MAX_VALUE / 2;

    final int[][] distance;
    final short[][] next;

    Floyd(int towns) {
        distance = new int[towns][towns];
        next = new short[towns][towns];
        for (int i = 0; i < towns; i++) {
            for (int j = 0; j < towns; j++) {
                distance[i][j] = i == j ? 0 : FAR;
                next[i][j] = -1;
            }
        }
    }

    void road(int from, int to, int length) {
        if (length < distance[from][to]) {
            distance[from][to] = length;
            next[from][to] = (short) to;
        }
    }

    void shorten() {
        int towns = distance.length;
        for (int by = 0; by < towns; by++) {
            for (int i = 0; i < towns; i++) {
                for (int j = 0; j < towns; j++) {
                    int length = distance[i][by] + distance[by][j];
                    if (length < distance[i][j]) {
                        distance[i][j] = length;
                        next[i][j] = next[i][by];
                    }
                }
            }
        }
    }

    void way(int from, int to) {
        if (next[from][to] < 0) {
            System.out.println("no way");
            return;
        }
        for (int at = from; at != to; at = next[at][to]) {
            System.out.print(at);
            System.out.print(' ');
        }
        System.out.print(to);
        System.out.print(" in ");
        System.out.println(distance[from][to]);
    }

    public static void main(String[] args) {
        int towns = 14;
        Floyd floyd = new Floyd(towns);
        for (int i = 0; i < towns - 1; i++) {
            floyd.road(i, (i * 5 + 3) % (towns - 1), 4 + i % 3);
            floyd.road((i + 7) % (towns - 1), i, 9 - i % 4);
            floyd.road(i, i / 2, 1 + i);
        }
        floyd.shorten();
        for (int[] row : floyd.distance) {
            for (int length : row) {
                System.out.print(length == FAR ? -1 : length);
                System.out.print(' ');
            }
            System.out.println();
        }
        floyd.way(0, 12);
        floyd.way(11, 4);
        floyd.way(5, 13);
        floyd.way(6, 1);
    }
}
