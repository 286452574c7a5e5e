/** Instructions on floats with no float in the pool or in a descriptor. */
class FloatCode {
    static int twice(int n) {
        return (int) (n * 2f);
    }
}
