/** Static fields and static initializers: each class is made ready at its first use. */
public class Numbered {
    static final int FIRST = 100;
    static int next;

    static {
        System.out.println("Numbered is made ready");
        next = FIRST;
    }

    final int number = next++;

    public static void main(String[] args) {
        System.out.println("main begins");
        Numbered one = new Numbered();
        Numbered other = new Numbered();
        System.out.println(one.number);
        System.out.println(other.number);
        System.out.println(Names.of(other.number - FIRST));
    }
}

class Names {
    private static final String[] ALL = {"zero", "one", "two"};

    static {
        System.out.println("Names is made ready");
    }

    static String of(int number) {
        return ALL[number];
    }
}
