/** Nested classes that use one another's private members. */
public class Nested {
    private static int secret = 42;
    private long wide = 1L;

    private static int twice(int n) {
        return 2 * n;
    }

    static class Inside {
        private final int own = secret;

        private Inside() {
            secret++;
        }

        int read() {
            return twice(own) + secret;
        }

        static class Deeper {
            private Deeper() {
            }

            int read() {
                return new Inside().own;
            }
        }
    }

    class Bound {
        void grow() {
            wide *= 10;
            Nested.this.wide += secret;
        }
    }

    void run() {
        Bound bound = new Bound();
        bound.grow();
        bound.grow();
        System.out.println(wide);
    }

    public static void main(String[] args) {
        System.out.println(new Inside().read());
        System.out.println(new Inside.Deeper().read());
        new Nested().run();
    }
}
