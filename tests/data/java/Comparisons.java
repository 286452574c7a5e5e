/** Each comparison of ints, of longs and of references, each against zero and null too. */
public class Comparisons {
    static int ints(int a, int b) {
        int set = 0;
        if (a == b) set |= 1;
        if (a != b) set |= 2;
        if (a < b) set |= 4;
        if (a >= b) set |= 8;
        if (a > b) set |= 16;
        if (a <= b) set |= 32;
        return set;
    }

    static int zero(int a) {
        int set = 0;
        if (a == 0) set |= 1;
        if (a != 0) set |= 2;
        if (a < 0) set |= 4;
        if (a >= 0) set |= 8;
        if (a > 0) set |= 16;
        if (a <= 0) set |= 32;
        return set;
    }

    static int longs(long a, long b) {
        int set = 0;
        if (a == b) set |= 1;
        if (a != b) set |= 2;
        if (a < b) set |= 4;
        if (a >= b) set |= 8;
        if (a > b) set |= 16;
        if (a <= b) set |= 32;
        return set;
    }

    static int references(Object a, Object b) {
        int set = 0;
        if (a == b) set |= 1;
        if (a != b) set |= 2;
        if (a == null) set |= 4;
        if (b != null) set |= 8;
        return set;
    }

    static boolean between(int low, int value, int high) {
        return low <= value && value < high;
    }

    static boolean outside(int low, int value, int high) {
        return !(low <= value) || value >= high;
    }

    public static void main(String[] args) {
        Object one = new Object();
        System.out.println(ints(3, 4));
        System.out.println(zero(-1));
        System.out.println(longs(1L << 40, 1L));
        System.out.println(references(one, one));
        System.out.println(references(null, one));
        System.out.println(between(1, 2, 3) ? 'y' : 'n');
        System.out.println(outside(1, 2, 3) ? 'y' : 'n');
    }
}
