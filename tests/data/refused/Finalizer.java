/** A finalizer. */
class Finalizer {
    protected void finalize() {
    }
}
