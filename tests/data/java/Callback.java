/** Own exceptions through an interface, and covariant results with a bridge. */
public abstract class Callback implements Cloneable, java.io.Serializable, Marker {
    static class Broken extends Error {
        private static final long serialVersionUID = 1L;
    }

    protected abstract Object call(int n) throws Exception;

    static class Words extends Callback {
        @Override
        protected String call(int n) throws Broken {
            if (n < 0) {
                throw new Broken();
            }
            return n == 0 ? "none" : n == 1 ? "one" : "many";
        }
    }

    static class Numbers extends Callback {
        @Override
        protected int[] call(int n) throws Exception {
            if (n > 2) {
                throw new Exception();
            }
            return new int[n];
        }
    }

    final int tried(int n) {
        try {
            Object result = call(n);
            return result instanceof String ? ((String) result).length() : ((int[]) result).length;
        } catch (Error error) {
            return -1;
        } catch (Exception exception) {
            return -2;
        }
    }

    public static void main(String[] args) {
        Callback[] all = {new Words(), new Numbers()};
        for (Callback one : all) {
            for (int n = -1; n < 4; n++) {
                System.out.println(n < 0 && one instanceof Numbers ? 0 : one.tried(n));
            }
        }
        System.out.println(new Words().call(1));
    }
}
