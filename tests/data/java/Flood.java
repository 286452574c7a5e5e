/** Fills the parts of a picture, from a list of places that are still to be looked at. */
public class Flood {
    final char[][] picture;
    final boolean[][] seen;

    Flood(int height, int width) {
        picture = new char[height][width];
        seen = new boolean[height][width];
    }

    void draw() {
        for (int y = 0; y < picture.length; y++) {
            for (int x = 0; x < picture[y].length; x++) {
                boolean wall = y * 7 % 11 == x % 8 || (x + y) % 9 == 0 || x == 2 * y;
                picture[y][x] = wall ? '#' : '.';
            }
        }
    }

    int fill(int fromY, int fromX, char colour) {
        char paper = picture[fromY][fromX];
        int[][] places = new int[4 * picture.length * picture[0].length + 1][2];
        int waiting = 0;
        int filled = 0;
        places[waiting][0] = fromY;
        places[waiting++][1] = fromX;
        while (waiting > 0) {
            int[] place = places[--waiting];
            int y = place[0];
            int x = place[1];
            if (seen[y][x] || picture[y][x] != paper) {
                continue;
            }
            seen[y][x] = true;
            picture[y][x] = colour;
            filled++;
            for (int side = 0; side < 4; side++) {
                int nextY = y + (side - 1) % 2;
                int nextX = x + (2 - side) % 2;
                if (nextY < 0 || nextX < 0 || nextY == picture.length || nextX == picture[0].length) {
                    continue;
                }
                places[waiting][0] = nextY;
                places[waiting++][1] = nextX;
            }
        }
        return filled;
    }

    void show() {
        for (char[] row : picture) {
            for (char c : row) {
                System.out.print(c);
            }
            System.out.println();
        }
    }

    public static void main(String[] args) {
        Flood flood = new Flood(12, 24);
        System.out.println((int) flood.picture[11][23]);
        flood.draw();
        flood.show();
        char colour = 'a';
        for (int y = 0; y < 12; y++) {
            for (int x = 0; x < 24; x++) {
                if (flood.picture[y][x] != '.') {
                    continue;
                }
                System.out.print(colour);
                System.out.print(' ');
                System.out.println(flood.fill(y, x, colour++));
            }
        }
        flood.show();
    }
}
