/** A main class whose superclass fails: main never begins. */
class FailedStart extends FailedAbove {
    static {
        System.out.println("never");
    }

    public static void main(String[] arguments) {
        System.out.println("never");
    }
}
