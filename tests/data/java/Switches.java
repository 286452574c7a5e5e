/** Switches whose keys lie close together, far apart, and on a char. */
public class Switches {
    static int close(int key) {
        switch (key) {
            case -2:
                return 20;
            case -1:
            case 0:
                return 30;
            case 2:
                return 40;
            case 5:
                key += 100;
            case 6:
                return key;
            default:
                return -1;
        }
    }

    static int apart(int key) {
        int result = 0;
        switch (key) {
            case Integer.MIN_VALUE:
                result = 1;
                break;
            case -1000:
                result = 2;
                break;
            case 70000:
                result = 3;
                break;
            case Integer.MAX_VALUE:
                result = 4;
        }
        return result;
    }

    static String letter(char c) {
        switch (c) {
            case 'a':
            case 'e':
            case 'i':
            case 'o':
            case 'u':
                return "vowel";
            case ' ':
                return "blank";
            default:
                return "other";
        }
    }

    static int nested(int outer, int inner) {
        switch (outer) {
            case 1:
                switch (inner) {
                    case 1: return 11;
                    case 2: return 12;
                    case 3: return 13;
                }
                return 10;
            case 1000000:
                return 7;
        }
        return 0;
    }

    public static void main(String[] args) {
        for (int key = -3; key < 8; key++) {
            System.out.print(close(key));
            System.out.print(' ');
        }
        System.out.println();
        System.out.println(apart(Integer.MIN_VALUE) + apart(70000) + apart(3));
        System.out.println(letter('e'));
        System.out.println(letter(' '));
        System.out.println(nested(1, 3));
    }
}
