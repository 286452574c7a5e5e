/** A literal of type double: its pool entry is left out. */
class DoubleConstant {
    static boolean past(int n) {
        return n > 2.5;
    }
}
