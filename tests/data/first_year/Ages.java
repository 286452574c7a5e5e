/** An exception with a message, in code that never runs. */
public class Ages {
    static int checked(int age) {
        if (age < 0) {
            throw new IllegalArgumentException("an age is not negative");
        }
        return age;
    }

    public static void main(String[] args) {
        System.out.println(checked(36));
    }
}
