// The fields of GivenNames, none a constant, so that Reading is compiled to read them when it runs.
class GivenNames {
    static int NUMBER, EARLY;
    static long FAR;
    static byte SMALL;
    static short SHORT;
    static char SIGN;
    static boolean YES;
    static String NAME;
}
