/** Recursion: the moves of three discs, and how many ten take. */
public class Hanoi {
    static int moves;

    static void move(int discs, char from, char to, char over, boolean isShown) {
        if (discs == 0) {
            return;
        }
        move(discs - 1, from, over, to, isShown);
        moves++;
        if (isShown) {
            System.out.print(from);
            System.out.print("->");
            System.out.println(to);
        }
        move(discs - 1, over, to, from, isShown);
    }

    public static void main(String[] args) {
        move(3, 'A', 'C', 'B', true);
        System.out.println(moves);
        moves = 0;
        move(10, 'A', 'C', 'B', false);
        System.out.println(moves);
    }
}
