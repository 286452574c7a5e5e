/** An array of two dimensions made by one instruction, multianewarray. */
class MultiArray {
    static int[][] grid(int n) {
        return new int[n][n];
    }
}
