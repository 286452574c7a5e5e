// The fields of Given, none a constant, so that Reading is compiled to read them when it runs.
class Given {
    static int INT, early, late;
    static long LONG;
    static byte BYTE;
    static short SHORT;
    static char CHAR;
    static boolean TRUE;
    static String TEXT;
}
