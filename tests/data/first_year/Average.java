/** A number with a fraction. */
public class Average {
    public static void main(String[] args) {
        int[] marks = {2, 3, 3};
        double sum = 0;
        for (int mark : marks) {
            sum += mark;
        }
        System.out.println(sum / marks.length);
    }
}
