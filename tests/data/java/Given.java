/** Constants of each type, which are there before the initializer of their class runs. */
class Given {
    static final int INT = -2147483648;
    static final long LONG = 9223372036854775807L;
    static final byte BYTE = -128;
    static final short SHORT = -32768;
    static final char CHAR = '\uffff';
    static final boolean TRUE = true;
    static final String TEXT = "text";

    static int early = Reading.look("class");
    static int late = 12;
}
