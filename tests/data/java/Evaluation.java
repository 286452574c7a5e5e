/** Expressions whose parts change what they read: the duplicating instructions. */
public class Evaluation {
    int field;
    long wide;
    static int calls;
    static long total;

    int next() {
        return field++;
    }

    long nextWide() {
        return wide++ + ++wide;
    }

    static int array(int[] xs, int i) {
        return xs[i]++ + --xs[i++] * (xs[i] += 5);
    }

    static long array(long[] xs, int i) {
        return xs[i]++ + (xs[i + 1] = xs[i] -= 3L);
    }

    static Evaluation same(Evaluation e) {
        calls++;
        return e;
    }

    static int chained(Evaluation e, int[] xs) {
        int a, b;
        a = b = same(e).field = xs[0] = 9;
        total = same(e).wide = a * b;
        same(e).field += a;
        same(e).wide *= b;
        return a + b;
    }

    public static void main(String[] args) {
        Evaluation e = new Evaluation();
        int[] xs = {1, 2, 3};
        long[] ys = {10L, 20L};
        System.out.println(e.next() + e.next());
        System.out.println(e.nextWide());
        System.out.println(array(xs, 0));
        System.out.println(array(ys, 0));
        System.out.println(chained(e, xs));
        System.out.println(e.wide);
        System.out.println(total + calls);
    }
}
