// A program of two class files. By name Outer$In.class stands before Outer.class, whose main is to be run.
public class Outer {
    static class In {
        int value() {
            return 42;
        }
    }

    public static void main(String[] args) {
        System.out.println(new In().value());
    }
}
