// Exceptions thrown and caught: nested tries, rethrown ones, finally, handlers in callers and in handlers.
class Caught {
    static class Refused extends RuntimeException {
        final int code;

        Refused(int code) {
            this.code = code;
        }
    }

    static class Worse extends Refused {
        Worse(int code) {
            super(code);
        }
    }

    static int depth;

    static int divide(int a, int b) {
        return a / b;
    }

    static int finallyReturns(int n) {
        try {
            return divide(10, n);
        } catch (ArithmeticException e) {
            return -1;
        } finally {
            System.out.println("finally");
        }
    }

    static int nested(int n) {
        int seen = 0;
        try {
            try {
                if (n == 0) {
                    throw new Worse(7);
                }
                if (n == 1) {
                    throw new Refused(8);
                }
                seen += 1;
            } catch (Worse e) {
                seen += e.code * 10;
            } finally {
                seen += 100;
            }
        } catch (Refused e) {
            seen += e.code * 1000;
        }
        return seen;
    }

    static void rethrow(int n) {
        try {
            divide(n, 0);
        } catch (RuntimeException e) {
            System.out.println("again");
            throw e;
        }
    }

    static void inHandler(int[] numbers) {
        try {
            numbers[numbers.length] = 1;
        } catch (ArrayIndexOutOfBoundsException e) {
            Object text = "text";
            Integers wrong = (Integers) text;
        }
    }

    static class Integers {
    }

    static void deeper() {
        depth++;
        deeper();
    }

    static int recovered() {
        int before = depth;
        try {
            deeper();
        } catch (StackOverflowError e) {
            return depth > before ? 1 : 0;
        }
        return 2;
    }

    static int loop() {
        int sum = 0;
        for (int i = 0; i < 6; i++) {
            try {
                if (i == 1) {
                    continue;
                }
                if (i == 4) {
                    break;
                }
                sum += divide(12, i);
            } catch (ArithmeticException e) {
                sum += 100;
            } finally {
                sum += 1000;
            }
        }
        return sum;
    }

    public static void main(String[] arguments) {
        System.out.println(finallyReturns(5));
        System.out.println(finallyReturns(0));
        for (int i = 0; i < 4; i++) {
            System.out.println(nested(i));
        }
        try {
            rethrow(1);
        } catch (ArithmeticException e) {
            System.out.println("outside");
        }
        try {
            inHandler(new int[3]);
        } catch (ClassCastException e) {
            System.out.println("in a handler");
        }
        System.out.println(recovered());
        System.out.println(recovered());
        System.out.println(loop());
        try {
            throw null;
        } catch (NullPointerException e) {
            System.out.println("null");
        }
        try {
            Object[] objects = new String[1];
            objects[0] = new Caught();
        } catch (ArrayStoreException e) {
            System.out.println("store");
        }
        try {
            System.out.println(new int[-1].length);
        } catch (NegativeArraySizeException e) {
            System.out.println("negative");
        }
        try {
            System.out.println("abc".charAt(3));
        } catch (IndexOutOfBoundsException e) {
            System.out.println("index");
        }
    }
}
