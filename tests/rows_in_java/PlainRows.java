/** Prints the first rows of data/answers/plain.txt, up to the switches: what Java computes for the plain instructions. */
class PlainRows {
    static final int[][] INTS = {{7, 2}, {-7, 2}, {7, -2}, {2147483647, 1}, {-2147483648, -1}, {65536, 65536}, {-2147483648, 0}};
    static final long[][] LONGS = {{7, 2}, {-7, 2}, {7, -2}, {9223372036854775807L, 1}, {-9223372036854775808L, -1}, {4294967296L, 4294967296L}, {-9223372036854775808L, 0}};
    static final int[] COUNTS = {1, 31, 32, 33, 47, 63, 64, 65, -1};
    static final int[] CONVERTED = {127, 128, 255, 256, 32767, 32768, 65535, 65536, -1, -128, -129, -32768, -32769, 2147483647, -2147483648};
    static final long[] NARROWED = {4294967295L, 4294967296L, -4294967297L, 2147483647L, 2147483648L, -2147483649L, 9223372036854775807L, -9223372036854775808L};

    static void row(String op, int maxStack, String stack, String want) {
        System.out.println(op + " | " + maxStack + " | " + stack + " => " + want);
    }

    static String on(int value) {
        return "on | " + value;
    }

    static String on(long value) {
        return "on | " + value + "L";
    }

    static final String ZERO = "java/lang/ArithmeticException | ";

    static void ints(int x, int y) {
        String stack = x + " " + y;
        row("iadd", 2, stack, on(x + y));
        row("isub", 2, stack, on(x - y));
        row("imul", 2, stack, on(x * y));
        String quotient;
        String remainder;
        try {
            quotient = on(x / y);
            remainder = on(x % y);
        } catch (ArithmeticException e) {
            quotient = ZERO + stack;
            remainder = ZERO + stack;
        }
        row("idiv", 2, stack, quotient);
        row("irem", 2, stack, remainder);
        row("iand", 2, stack, on(x & y));
        row("ior", 2, stack, on(x | y));
        row("ixor", 2, stack, on(x ^ y));
        row("ineg", 2, stack, "on | " + x + " " + -y);
    }

    static void longs(long x, long y) {
        String stack = x + "L " + y + "L";
        row("ladd", 4, stack, on(x + y));
        row("lsub", 4, stack, on(x - y));
        row("lmul", 4, stack, on(x * y));
        String quotient;
        String remainder;
        try {
            quotient = on(x / y);
            remainder = on(x % y);
        } catch (ArithmeticException e) {
            quotient = ZERO + stack;
            remainder = ZERO + stack;
        }
        row("ldiv", 4, stack, quotient);
        row("lrem", 4, stack, remainder);
        row("land", 4, stack, on(x & y));
        row("lor", 4, stack, on(x | y));
        row("lxor", 4, stack, on(x ^ y));
        row("lneg", 4, stack, "on | " + x + "L " + -y + "L");
        row("lcmp", 4, stack, on(Long.compare(x, y)));
        row("lcmp", 4, y + "L " + x + "L", on(Long.compare(y, x)));
    }

    static void branch(String name, String stack, boolean holds) {
        row(name + " L9", 2, stack, (holds ? "to 9" : "on") + " |");
    }

    static void branches(int x, int y) {
        String stack = x + " " + y;
        branch("if_icmpeq", stack, x == y);
        branch("if_icmpne", stack, x != y);
        branch("if_icmplt", stack, x < y);
        branch("if_icmpge", stack, x >= y);
        branch("if_icmpgt", stack, x > y);
        branch("if_icmple", stack, x <= y);
    }

    static void branches(int x) {
        branch("ifeq", "" + x, x == 0);
        branch("ifne", "" + x, x != 0);
        branch("iflt", "" + x, x < 0);
        branch("ifge", "" + x, x >= 0);
        branch("ifgt", "" + x, x > 0);
        branch("ifle", "" + x, x <= 0);
    }

    static void shifts(int count) {
        int x = -123456789;
        long y = -1234567890123456789L;
        row("ishl", 2, x + " " + count, on(x << count));
        row("ishr", 2, x + " " + count, on(x >> count));
        row("iushr", 2, x + " " + count, on(x >>> count));
        row("lshl", 3, y + "L " + count, on(y << count));
        row("lshr", 3, y + "L " + count, on(y >> count));
        row("lushr", 3, y + "L " + count, on(y >>> count));
    }

    static int table(int n) {
        switch (n) {
            case -1:
                return 20;
            case 0:
                return 21;
            case 1:
                return 22;
            default:
                return 9;
        }
    }

    static int lookup(int n) {
        switch (n) {
            case -2147483648:
                return 20;
            case -5:
                return 21;
            case 0:
                return 22;
            case 7:
                return 23;
            case 2147483647:
                return 24;
            default:
                return 9;
        }
    }

    public static void main(String[] args) {
        for (int[] pair : INTS) {
            ints(pair[0], pair[1]);
        }
        for (long[] pair : LONGS) {
            longs(pair[0], pair[1]);
        }
        for (int count : COUNTS) {
            shifts(count);
        }
        for (int x : new int[] {-1, 0, 1, -2147483648}) {
            branches(x);
        }
        branches(3, 3);
        branches(-2147483648, 2147483647);
        branches(2147483647, -2147483648);
        for (int x : CONVERTED) {
            row("i2b", 1, "" + x, on((int) (byte) x));
            row("i2c", 1, "" + x, on((int) (char) x));
            row("i2s", 1, "" + x, on((int) (short) x));
        }
        for (int n : new int[] {-1, 0, 1, 2, -2, 2147483647, -2147483648}) {
            row("tableswitch -1 / L20 / L21 / L22 / default : L9", 1, "" + n, "to " + table(n) + " |");
        }
        for (int n : new int[] {-2147483648, -5, 0, 7, 2147483647, -2147483647, -6, -4, 1, 6, 8, 2147483646}) {
            row("lookupswitch / -2147483648 : L20 / -5 : L21 / 0 : L22 / 7 : L23 / 2147483647 : L24 / default : L9", 1, "" + n, "to " + lookup(n) + " |");
        }
        for (long y : NARROWED) {
            row("l2i", 2, y + "L", on((int) y));
            row("i2l", 2, "" + (int) y, on((long) (int) y));
        }
    }
}
