/** Texts put together by `+`. */
public class Greeting {
    public static void main(String[] args) {
        String name = "Ada";
        int age = 36;
        System.out.println("Hello, " + name + ", you are " + age);
    }
}
