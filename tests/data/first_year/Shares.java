/** A division by zero: the third party has no guests. */
public class Shares {
    static int share(int pieces, int guests) {
        return pieces / guests;
    }

    public static void main(String[] args) {
        int[] guests = {4, 6, 0, 3};
        for (int i = 0; i < guests.length; i++) {
            System.out.println(share(12, guests[i]));
        }
    }
}
