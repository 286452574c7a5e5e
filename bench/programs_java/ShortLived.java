/** Objects that are dropped as soon as they were read: pairs, and small arrays. */
class ShortLived {
    static class Pair {
        int left, right;

        Pair(int left, int right) {
            this.left = left;
            this.right = right;
        }

        Pair swapped() {
            return new Pair(right, left + 1);
        }
    }

    public static void main(String[] arguments) {
        Pair pair = new Pair(1, 2);
        int sum = 0;
        for (int round = Size.of(); round > 0; round--) {
            pair = pair.swapped().swapped();
            int[] both = { pair.left, pair.right, round };
            sum += both[0] ^ both[1] ^ both[2];
        }
        System.out.println(sum);
        System.out.println(pair.left + pair.right);
    }
}
