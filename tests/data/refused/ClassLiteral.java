/** A class literal: ldc of a class. */
class ClassLiteral {
    static Object literal() {
        return String.class;
    }
}
