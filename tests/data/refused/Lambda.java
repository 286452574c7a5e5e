/** A lambda: an entry for invokedynamic in the pool. */
class Lambda {
    static Runnable action() {
        return () -> { };
    }
}
