/** What is done at a click is said by a lambda. */
public class Button {
    interface Action {
        void run(int clicks);
    }

    static void click(Action action, int times) {
        for (int i = 1; i <= times; i++) {
            action.run(i);
        }
    }

    public static void main(String[] args) {
        click(clicks -> System.out.println(clicks), 3);
    }
}
