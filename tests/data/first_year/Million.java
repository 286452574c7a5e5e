/** A loop that has an end, behind more events than are made where nothing else is said. */
public class Million {
    public static void main(String[] args) {
        System.out.println("summing");
        long sum = 0;
        for (int i = 1; i <= 200000; i++) {
            sum += i;
        }
        System.out.println(sum);
    }
}
