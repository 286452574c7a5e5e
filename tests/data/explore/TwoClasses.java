/** Two threads begin to initialize two classes, each of which wants the other. */
public class TwoClasses {
    public static void main(String[] args) {
        new Beginner().start();
        System.out.println(Left.value);
    }
}

class Beginner extends Thread {
    public void run() {
        System.out.println(Right.value);
    }
}

class Left {
    static int value = Right.value + 1;
}

class Right {
    static int value = Left.value + 1;
}
