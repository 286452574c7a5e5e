/** Exceptions that leave frames, loops, constructors and arguments, and what finally does on the way. */
class Unwound {
    static class Lost extends Exception {
        final long code;

        Lost(long code) {
            this.code = code;
        }
    }

    static class Made {
        static int made;
        final int number = one(made);

        {
            made++;
            if (made == 2) {
                throw new IllegalArgumentException();
            }
        }

        Made(int least) throws Lost {
            if (made > 2) {
                throw new Lost(number * 10000000000L + least);
            }
        }
    }

    static int one(int n) {
        return n + 1;
    }

    static int fail(int n) throws Lost {
        if (n >= 0) {
            throw new Lost(n);
        }
        return n;
    }

    @SuppressWarnings("finally")
    static int returnInFinally() {
        try {
            return 1 / (one(1) - 2);
        } finally {
            return 5;
        }
    }

    @SuppressWarnings("finally")
    static long replaced() throws Lost {
        try {
            fail(3);
        } finally {
            throw new Lost(4);
        }
    }

    static int valueBeforeFinally() {
        int n = 1;
        try {
            n = 2;
            return n;
        } finally {
            n = 3;
            System.out.println(n);
        }
    }

    static int labels() {
        int trace = 0;
        outer:
        for (int i = 0; i < 4; i++) {
            for (int j = 0; j < 4; j++) {
                try {
                    try {
                        if (j == i) {
                            continue outer;
                        }
                        if (i == 3 && j == 2) {
                            break outer;
                        }
                        trace += fail(j - 1);
                    } finally {
                        trace += 10;
                    }
                } catch (Lost lost) {
                    trace += lost.code == 0 ? 100 : 1000;
                } finally {
                    trace += 10000;
                }
            }
        }
        return trace;
    }

    static long operands(int n) {
        long[] longs = {1, 2, 3};
        long far = 1L << 40;
        try {
            longs[one(0)] = far + longs[0] * (far - one((int) longs[n]) / (n - 1));
        } catch (ArithmeticException e) {
            far += 1;
        } catch (IndexOutOfBoundsException e) {
            far += 2;
        }
        return far + longs[1];
    }

    static int levels(int n) throws Lost {
        try {
            return n == 0 ? fail(7) : levels(n - 1) + 1;
        } finally {
            System.out.println(n);
        }
    }

    static int overflows(int n) {
        try {
            return overflows(n + 1);
        } catch (StackOverflowError e) {
            return 1;
        }
    }

    static int many(int n) {
        try {
            switch (n) {
                case 0:
                    return ((int[]) null)[0];
                case 1:
                    return (int) ((long[]) (Object) new int[1])[0];
                case 2:
                    return (new String[1])[0].length();
                case 3:
                    return "text".charAt(-1);
                case 4:
                    return new int[one(-3)].length;
                default:
                    throw new Error();
            }
        } catch (NullPointerException | ClassCastException e) {
            return e instanceof NullPointerException ? 1 : 2;
        } catch (RuntimeException e) {
            return e instanceof StringIndexOutOfBoundsException ? 3 : 4;
        } catch (Throwable e) {
            return e instanceof Exception ? 5 : 6;
        }
    }

    public static void main(String[] arguments) throws Lost {
        System.out.println(returnInFinally());
        System.out.println(valueBeforeFinally());
        try {
            System.out.println(replaced());
        } catch (Lost lost) {
            System.out.println(lost.code);
        }
        System.out.println(labels());
        for (int i = 0; i < 4; i++) {
            System.out.println(operands(i));
        }
        for (int i = 0; i < 3; i++) {
            try {
                System.out.println(new Made(i).number);
            } catch (Lost lost) {
                System.out.println(lost.code);
            } catch (IllegalArgumentException e) {
                System.out.println("initializer");
            }
        }
        System.out.println(overflows(0));
        for (int i = 0; i < 6; i++) {
            System.out.println(many(i));
        }
        System.out.println(levels(3));
    }
}
