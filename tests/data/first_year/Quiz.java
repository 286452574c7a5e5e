import java.util.Scanner;

/** A number is read from the keyboard. */
public class Quiz {
    public static void main(String[] args) {
        Scanner in = new Scanner(System.in);
        System.out.println("What is 3 times 4?");
        int answer = in.nextInt();
        System.out.println(answer == 12 ? "right" : "wrong");
    }
}
