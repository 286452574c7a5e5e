/** A first program: texts are printed, each on a line of its own. */
public class Hello {
    public static void main(String[] args) {
        System.out.println("Hello, world!");
        System.out.print("Two parts");
        System.out.println(" of one line");
    }
}
