/** A class whose initializer ends by an exception that it has caught and thrown again. */
class FailedAbove {
    static int[] numbers;

    static {
        try {
            System.out.println("above");
            numbers[0] = 1;
        } catch (NullPointerException e) {
            System.out.println("caught");
            throw e;
        } finally {
            System.out.println("finally");
        }
    }
}
