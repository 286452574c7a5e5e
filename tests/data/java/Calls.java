/** Each kind of call: static, special, virtual and interface, with many arguments. */
public class Calls {
    interface Action {
        long act(int a, long b, Object c, int d);
    }

    static class First implements Action {
        @Override
        public long act(int a, long b, Object c, int d) {
            return a + b + d + (c == null ? 0 : 1);
        }

        private int hidden() {
            return 1;
        }

        int open() {
            return hidden();
        }
    }

    static class Second extends First {
        @Override
        public long act(int a, long b, Object c, int d) {
            return super.act(a, b, c, d) * 2;
        }

        private int hidden() {
            return 2;
        }

        @Override
        int open() {
            return super.open() * 10 + hidden();
        }
    }

    static long many(int a, long b, int c, long d, byte e, char f, short g, boolean h, String i, int[] j) {
        return a + b + c + d + e + f + g + (h ? 1 : 0) + i.length() + j.length;
    }

    static void nothing() {
    }

    static Object some(Object o) {
        nothing();
        return o;
    }

    public static void main(String[] args) {
        Action action = new Second();
        some(action);
        System.out.println(action.act(1, 2L, action, 3));
        System.out.println(((First) some(action)).open());
        System.out.println(new First().open());
        System.out.println(many(1, 2L, 3, 4L, (byte) 5, 'a', (short) 7, true, "nine", new int[10]));
    }
}
