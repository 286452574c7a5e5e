/** An array of floats made by newarray. */
class FloatArray {
    static int length(int n) {
        return new float[n].length;
    }
}
