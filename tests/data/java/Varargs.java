/** Methods of a variable number of arguments, and overloads beside them. */
public class Varargs {
    static int sum(int... xs) {
        int sum = 0;
        for (int x : xs) {
            sum += x;
        }
        return sum;
    }

    static int sum(int a, int b) {
        return 1000 + a + b;
    }

    static long last(long first, long... more) {
        return more.length == 0 ? first : more[more.length - 1];
    }

    static void print(String... words) {
        for (String word : words) {
            System.out.print(word);
            System.out.print('.');
        }
        System.out.println();
    }

    static int count(Object... objects) {
        return objects == null ? -1 : objects.length;
    }

    public static void main(String... args) {
        System.out.println(sum());
        System.out.println(sum(1, 2));
        System.out.println(sum(1, 2, 3));
        System.out.println(last(5L));
        System.out.println(last(5L, 6L, 7L));
        print("some", "more", "words");
        System.out.println(count("a", new Object(), null));
        System.out.println(count((Object[]) null));
    }
}
