/** An interface method with code. */
interface DefaultMethod {
    default int one() {
        return 1;
    }
}
