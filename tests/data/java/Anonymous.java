/** Anonymous and local classes that capture what stands around them. */
public class Anonymous {
    interface Counter {
        int next();
    }

    private int total;

    Counter from(final int start) {
        return new Counter() {
            private int now = start;

            @Override
            public int next() {
                total += now;
                return now++;
            }
        };
    }

    static Counter doubling(final long limit) {
        class Doubling implements Counter {
            int now = 1;

            @Override
            public int next() {
                if (now < limit) {
                    now *= 2;
                }
                return now;
            }
        }
        return new Doubling();
    }

    public static void main(String[] args) {
        Anonymous all = new Anonymous();
        Counter up = all.from(7);
        Counter twice = doubling(10L);
        for (int i = 0; i < 5; i++) {
            System.out.print(up.next());
            System.out.print(' ');
            System.out.println(twice.next());
        }
        System.out.println(all.total);
    }
}
