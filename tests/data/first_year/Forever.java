/** A loop without an end: the number that is asked for is never raised. */
public class Forever {
    public static void main(String[] args) {
        int number = 1;
        int sum = 0;
        System.out.println("the sum of the squares below fifty");
        while (number * number < 50) {
            sum += number * number;
        }
        System.out.println(sum);
    }
}
