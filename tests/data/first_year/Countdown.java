/** A recursion without an end: nothing asks for zero. */
public class Countdown {
    static int count(int from) {
        return count(from - 1);
    }

    public static void main(String[] args) {
        System.out.println("counting down");
        System.out.println(count(10));
    }
}
