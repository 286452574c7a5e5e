/** Interfaces that extend others, constants in them, and a class of several. */
public class Interfaces {
    interface Named {
        String PREFIX = "n:";

        String name();
    }

    interface Sized {
        int LIMIT = 100;
        long BIG = 1L << 40;
        char MARK = '#';
        boolean STRICT = true;

        int size();
    }

    interface Both extends Named, Sized {
        Object LOCK = new Object();
        int[] TABLE = {1, 2, 3};

        void resize(int size);
    }

    static class Thing implements Both {
        private int size = LIMIT;

        @Override
        public String name() {
            return PREFIX;
        }

        @Override
        public int size() {
            return size;
        }

        @Override
        public void resize(int size) {
            this.size = size < LIMIT ? size : LIMIT;
        }
    }

    static int measure(Object o) {
        if (o instanceof Both) {
            ((Both) o).resize(TABLE_LENGTH);
        }
        return o instanceof Sized ? ((Sized) o).size() : -1;
    }

    static final int TABLE_LENGTH = 3;

    public static void main(String[] args) {
        Thing thing = new Thing();
        Sized sized = thing;
        Named named = thing;
        System.out.println(sized.size());
        System.out.println(named.name());
        System.out.println(measure(thing));
        System.out.println(measure("text"));
        System.out.println(Both.TABLE[2]);
        System.out.println(Both.LOCK == null ? 'n' : Sized.MARK);
        System.out.println(Sized.BIG);
    }
}
