/** String literals with each form that modified UTF-8 has. */
public class Texts {
    static final String ZERO = "a\0b";
    static final String TWO_BYTES = "\u0080\u07ff";
    static final String THREE_BYTES = "\u0800\ud7ff\ue000\uffff";
    static final String PAIR = "\uD83D\uDE00";
    static final String LONE = "x\uDC00\uD800y";

    static int hash(String s) {
        int h = 0;
        for (int i = 0; i < s.length(); i++) {
            h = 31 * h + s.charAt(i);
        }
        return h;
    }

    static boolean same(String a, String b) {
        if (a.length() != b.length()) {
            return false;
        }
        for (int i = 0; i < a.length(); i++) {
            if (a.charAt(i) != b.charAt(i)) {
                return false;
            }
        }
        return true;
    }

    public static void main(String[] args) {
        System.out.println(hash(ZERO));
        System.out.println(hash(TWO_BYTES));
        System.out.println(hash(THREE_BYTES));
        System.out.println(hash(PAIR));
        System.out.println(hash(LONE));
        System.out.println(same("abc", "abc") ? "same" : "other");
        System.out.println("abc" == "abc" ? "one" : "two");
        System.out.println("tab\tquote\"backslash\\");
        System.out.println((String) null);
    }
}
