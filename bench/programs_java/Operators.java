/** Interface calls in a loop: four classes of one interface, of which one has it from its superclass. */
class Operators {
    interface Operator {
        int applied(int to);
    }

    interface Named {
        char name();
    }

    static class Plus implements Named, Operator {
        int by;

        Plus(int by) {
            this.by = by;
        }

        public int applied(int to) {
            return to + by;
        }

        public char name() {
            return '+';
        }
    }

    static class Minus extends Plus {
        Minus(int by) {
            super(by);
        }

        public int applied(int to) {
            return to - by;
        }

        public char name() {
            return '-';
        }
    }

    static class Twice implements Operator, Named {
        public int applied(int to) {
            return to << 1;
        }

        public char name() {
            return '2';
        }
    }

    static class Turned implements Operator, Named {
        public int applied(int to) {
            return ~to;
        }

        public char name() {
            return '~';
        }
    }

    public static void main(String[] arguments) {
        Operator[] operators = { new Plus(7), new Twice(), new Minus(5), new Turned() };
        int value = 1, names = 0;
        for (int round = Size.of(); round > 0; round--) {
            for (Operator operator : operators) {
                value = operator.applied(value);
                names += ((Named) operator).name();
            }
        }
        System.out.println(value);
        System.out.println(names);
    }
}
