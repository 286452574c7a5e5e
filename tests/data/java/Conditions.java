/** Conditions joined and turned round, as branches and as values. */
public class Conditions {
    static boolean majority(boolean a, boolean b, boolean c) {
        return a && b || b && c || a && c;
    }

    static boolean strict(boolean a, boolean b) {
        return a & !b | !a ^ b;
    }

    static int choose(int n) {
        return n > 10 ? n > 100 ? 3 : 2 : n < 0 ? -1 : 1;
    }

    static boolean leap(int year) {
        return year % 4 == 0 && (year % 100 != 0 || year % 400 == 0);
    }

    static boolean flip(boolean[] flags, int i) {
        return flags[i] = !flags[i];
    }

    public static void main(String[] args) {
        boolean[] flags = new boolean[2];
        int set = 0;
        if (majority(true, false, true)) set += 1;
        if (!strict(true, true)) set += 2;
        if (leap(2000) && !leap(1900)) set += 4;
        if (flip(flags, 1) | flip(flags, 1)) set += 8;
        System.out.println(set);
        System.out.println(choose(50) * 100 + choose(-5) * 10 + choose(5));
    }
}
