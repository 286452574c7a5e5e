// How classes begin: constants of each type, the order of initializers, and initializers that fail.
class Starting {
    static final int INT = -2147483648;
    static final long LONG = 9223372036854775807L;
    static final byte BYTE = -128;
    static final short SHORT = -32768;
    static final char CHAR = '\u0041';
    static final boolean TRUE = true;
    static final String TEXT = "text";

    interface Limits {
        int MOST = 512;
        long FAR = 1L << 40;
        String NAME = "limits";
        int COMPUTED = Starting.say("interface", 3);
    }

    static class Above {
        static int above = say("above", 1);

        static int number() {
            return above;
        }
    }

    static class Below extends Above implements Limits {
        static int below = say("below", above + 1);
        static final int CONSTANT = 77;

        static {
            System.out.println("block");
            below += 10;
        }
    }

    static class Broken {
        static int value = 1 / zero();

        static int zero() {
            System.out.println("broken");
            return 0;
        }
    }

    static class UnderBroken extends Broken {
        static int own = say("never", 1);
    }

    static class BrokenByError {
        static int value = fail();

        static int fail() {
            throw new NoClassDefFoundError();
        }
    }

    static class First {
        static int first = Second.second + 1;
    }

    static class Second {
        static int second = First.first + 10;
    }

    static int say(String text, int number) {
        System.out.println(text);
        return number;
    }

    static void touch(int which) {
        try {
            int value = 0;
            if (which == 0) {
                value = Broken.value;
            } else if (which == 1) {
                value = UnderBroken.own;
            } else {
                value = BrokenByError.value;
            }
            System.out.println(value);
        } catch (ExceptionInInitializerError e) {
            System.out.println("in an initializer");
        } catch (NoClassDefFoundError e) {
            System.out.println("no class");
        }
    }

    public static void main(String[] arguments) {
        System.out.println(INT);
        System.out.println(LONG);
        System.out.println((int) BYTE);
        System.out.println((int) SHORT);
        System.out.println(CHAR);
        System.out.println(TRUE ? 1 : 0);
        System.out.println(TEXT);
        System.out.println(Limits.MOST);
        System.out.println(Below.CONSTANT);
        System.out.println(Below.below);
        System.out.println(Below.number());
        System.out.println(Limits.COMPUTED);
        for (int i = 0; i < 6; i++) {
            touch(i % 3);
        }
        System.out.println(First.first);
        System.out.println(Second.second);
    }
}
