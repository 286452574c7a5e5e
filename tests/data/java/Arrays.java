/** Arrays of each element type, and arrays of arrays. */
public class Arrays {
    static byte[] bytes = {1, -1, 127, -128};
    static boolean[] flags = new boolean[3];
    static char[] chars = {'a', '\u00e9', '\uffff'};
    static short[] shorts = {1, -32768};
    static int[] ints = {1, 1 << 30};
    static long[] longs = {1L, Long.MIN_VALUE};
    static String[] strings = {"one", null, "three"};
    static Object[] objects = strings;
    static int[][] rows = {{1}, {1, 2}, null, {}};
    static long[][][] cubes = new long[2][][];

    static int sumOf(byte[] xs) {
        int sum = 0;
        for (byte x : xs) {
            sum += x;
        }
        return sum;
    }

    static int count(boolean[] xs) {
        int count = 0;
        for (boolean x : xs) {
            if (x) count++;
        }
        return count;
    }

    static long total(long[] xs) {
        long total = 0;
        for (int i = xs.length - 1; i >= 0; --i) {
            total ^= xs[i];
        }
        return total;
    }

    static void swap(short[] xs, int i, int j) {
        short x = xs[i];
        xs[i] = xs[j];
        xs[j] = x;
    }

    public static void main(String[] args) {
        flags[1] = true;
        bytes[0] += 300;
        chars[2]++;
        ints[1] <<= 1;
        longs[0]--;
        swap(shorts, 0, 1);
        cubes[1] = new long[][] {{5L, 6L}, new long[4]};
        System.out.println(sumOf(bytes));
        System.out.println(count(flags));
        System.out.println((int) chars[2]);
        System.out.println(shorts[0]);
        System.out.println(ints[1]);
        System.out.println(total(longs));
        System.out.println(cubes[1][0][1]);
        System.out.println(rows[1].length + rows[3].length);
        for (String s : strings) {
            System.out.println(s);
        }
        System.out.println((String) objects[2]);
        System.out.println(args.length);
    }
}
