/** An exception that passes through three frames before it is caught. */
public class Through {
    static int at(int[] xs, int i) {
        return xs[i];
    }

    static int middle(int[] xs) {
        return at(xs, xs.length) + 1;
    }

    static int outer(int[] xs) {
        return middle(xs) * 2;
    }

    public static void main(String[] args) {
        int[] xs = new int[] {3, 4};
        try {
            System.out.println(outer(xs));
        } catch (ArrayIndexOutOfBoundsException e) {
            System.out.println("</script> is only text");
        }
    }
}
