/** Constant fields of each type that has a constant, at the ends of the ranges. */
public class Constants {
    public static final int ZERO = 0;
    public static final int SMALL = 127;
    public static final int MIDDLE = 32767;
    public static final int LARGE = 1234567890;
    public static final int LEAST = Integer.MIN_VALUE;
    public static final long LONG = 0x0123456789ABCDEFL;
    public static final long LONG_LEAST = Long.MIN_VALUE;
    protected static final char CHAR = '\uFFFF';
    protected static final byte BYTE = -128;
    static final short SHORT = -32768;
    static final boolean YES = true;
    static final boolean NO = false;
    private static final String TEXT = "constant";
    private static final String EMPTY = "";
    private static final String JOINED = TEXT + '-' + LARGE + "-" + YES;
    final int instance = 5;
    final long wide = 1L << 33;
    transient int dropped = -1;
    volatile long seen;
    static int variable = 17;

    long sum() {
        seen = instance + wide + dropped + variable;
        return seen;
    }

    public static void main(String[] args) {
        Constants c = new Constants();
        System.out.println(ZERO + SMALL + MIDDLE + LARGE + LEAST);
        System.out.println(LONG);
        System.out.println(LONG_LEAST);
        System.out.println((int) CHAR);
        System.out.println(BYTE + SHORT);
        System.out.println(YES ^ NO ? 'T' : 'F');
        System.out.println(JOINED);
        System.out.println(EMPTY.length());
        System.out.println(c.sum());
    }
}
