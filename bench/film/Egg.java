/** Two classes that initialize one another: what the second reads is not set yet. */
public class Egg {
    static int size = Hen.size + 1;

    public static void main(String[] args) {
        System.out.println(size);
        System.out.println(Hen.size);
    }
}

class Hen {
    static int size = Egg.size + 10;
}
