/** Casts between numbers, and between classes, interfaces and arrays. */
public class Casts {
    static int numbers(long n) {
        byte b = (byte) n;
        short s = (short) n;
        char c = (char) n;
        int i = (int) n;
        return b ^ s ^ c ^ i;
    }

    static char kind(Object o) {
        if (o instanceof String) return 's';
        if (o instanceof int[]) return 'i';
        if (o instanceof String[]) return 'S';
        if (o instanceof Object[]) return 'O';
        if (o instanceof Exception) return 'e';
        if (o instanceof Cloneable) return 'c';
        return o == null ? '0' : 'o';
    }

    static int[] asInts(Object o) {
        return (int[]) o;
    }

    static String[][] asRows(Object[] o) {
        return (String[][]) o;
    }

    public static void main(String[] args) {
        System.out.println(numbers(0x123456789ABCL));
        System.out.print(kind("s"));
        System.out.print(kind(new int[0]));
        System.out.print(kind(new String[0]));
        System.out.print(kind(new int[1][]));
        System.out.print(kind(new Exception()));
        System.out.print(kind(new long[0]));
        System.out.print(kind(null));
        System.out.println(kind(new Object()));
        System.out.println(asInts(new int[] {6, 7})[1]);
        System.out.println(asRows(new String[][] {{"row"}})[0][0]);
        System.out.println((byte) 200 + (char) 65 + (short) 70000);
    }
}
