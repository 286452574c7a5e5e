/** Hashes and pseudo random numbers with shifts and masks. */
public strictfp class Hash {
    private long state;

    Hash(long seed) {
        state = (seed ^ 0x5DEECE66DL) & ((1L << 48) - 1);
    }

    int next(int bits) {
        state = (state * 0x5DEECE66DL + 0xBL) & ((1L << 48) - 1);
        return (int) (state >>> (48 - bits));
    }

    static int fnv(byte[] bytes) {
        int hash = 0x811C9DC5;
        for (byte b : bytes) {
            hash = (hash ^ (b & 0xFF)) * 0x01000193;
        }
        return hash;
    }

    static long mix(long z) {
        z = (z ^ (z >>> 30)) * 0xBF58476D1CE4E5B9L;
        z = (z ^ (z >>> 27)) * 0x94D049BB133111EBL;
        return z ^ (z >>> 31);
    }

    static int rotate(int n, int by) {
        return n << by | n >>> -by;
    }

    static int bits(int n) {
        n -= n >>> 1 & 0x55555555;
        n = (n & 0x33333333) + (n >>> 2 & 0x33333333);
        return (n + (n >>> 4) & 0x0F0F0F0F) * 0x01010101 >>> 24;
    }

    public static void main(String[] args) {
        Hash hash = new Hash(42L);
        System.out.println(hash.next(32));
        System.out.println(hash.next(31));
        System.out.println(fnv(new byte[] {1, 2, (byte) 255}));
        System.out.println(mix(1L));
        System.out.println(rotate(0x80000001, 4));
        System.out.println(bits(-2));
    }
}
