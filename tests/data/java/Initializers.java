/** Static initializers that run in an order, and one that fails. */
public class Initializers {
    static int order = 1;
    static final int[] SQUARES = new int[10];

    static {
        for (int i = 0; i < SQUARES.length; i++) {
            SQUARES[i] = i * i;
        }
        order = order * 10 + 2;
    }

    static class Parent {
        static int seen = next(3);

        int value = next(5);

        {
            value += next(6);
        }
    }

    static class Child extends Parent {
        static final int NONE;
        static final long CONSTANT = 99L;

        static {
            NONE = next(4);
        }

        Child() {
            value += NONE;
        }
    }

    static class Failing {
        static int broken = 1 / zero();

        static int zero() {
            return 0;
        }
    }

    static int next(int digit) {
        order = order * 10 + digit;
        return order;
    }

    public static void main(String[] args) {
        System.out.println(Child.CONSTANT);
        System.out.println(order);
        System.out.println(new Child().value);
        System.out.println(order);
        System.out.println(SQUARES[9]);
        try {
            System.out.println(Failing.broken);
        } catch (ExceptionInInitializerError e) {
            System.out.println("failed");
        }
        try {
            System.out.println(Failing.zero());
        } catch (NoClassDefFoundError e) {
            System.out.println("again");
        }
    }
}
