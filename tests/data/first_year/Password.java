/** Two texts compared by equals. */
public class Password {
    static boolean isRight(String word) {
        return word.equals("sesame");
    }

    public static void main(String[] args) {
        System.out.println(isRight("sesame") ? "open" : "shut");
    }
}
