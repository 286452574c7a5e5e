/** A method that takes a double: its descriptor is left out. */
class DoubleMethod {
    static void take(double ignored) {
    }
}
