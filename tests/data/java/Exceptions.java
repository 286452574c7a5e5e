/** Own exceptions, try, catch of several classes, finally, and rethrowing. */
public class Exceptions {
    static class Refused extends Exception {
        final int number;

        Refused(int number) {
            this.number = number;
        }
    }

    static class Stopped extends RuntimeException {
    }

    static int tried(int way) {
        int trace = 1;
        try {
            trace = trace * 10 + fail(way);
        } catch (Refused refused) {
            trace = trace * 10 + refused.number;
        } catch (ArithmeticException | NullPointerException e) {
            trace = trace * 10 + 5;
        } finally {
            trace = trace * 10 + 9;
        }
        return trace;
    }

    static int fail(int way) throws Refused {
        switch (way) {
            case 0:
                return 0;
            case 1:
                throw new Refused(3);
            case 2:
                return 1 / (way - 2);
            case 3:
                return ((String) null).length();
            case 4:
                return new int[] {way}[way];
            default:
                throw new Stopped();
        }
    }

    @SuppressWarnings("finally")
    static int overridden() {
        try {
            throw new Stopped();
        } finally {
            return 77;
        }
    }

    static int nested() {
        int trace = 0;
        try {
            try {
                throw new IllegalArgumentException();
            } finally {
                trace += 1;
            }
        } catch (IllegalStateLike wrong) {
            trace += 10;
        } catch (RuntimeException right) {
            trace += 100;
        }
        return trace;
    }

    static class IllegalStateLike extends IllegalArgumentException {
    }

    static int loop() {
        int passes = 0;
        for (int i = 0; i < 10; i++) {
            try {
                if (i == 2) continue;
                if (i == 5) break;
                passes += i;
            } finally {
                passes += 100;
            }
        }
        return passes;
    }

    public static void main(String[] args) throws Exception {
        for (int way = 0; way < 4; way++) {
            System.out.println(tried(way));
        }
        System.out.println(overridden());
        System.out.println(nested());
        System.out.println(loop());
        try {
            throw new Refused(8);
        } catch (Exception e) {
            System.out.println(e instanceof Refused ? ((Refused) e).number : -1);
        }
    }
}
