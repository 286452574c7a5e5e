/** A generic stack with an inner class that is not static, and an inner iterator. */
public class LinkedStack<T> {
    private Node top;
    private int size;

    private class Node {
        final T item;
        final Node below;

        Node(T item) {
            this.item = item;
            this.below = top;
            size++;
        }
    }

    class Walk {
        private Node at = top;

        boolean more() {
            return at != null;
        }

        T next() {
            T item = at.item;
            at = at.below;
            return item;
        }
    }

    void push(T item) {
        top = new Node(item);
    }

    T pop() {
        if (top == null) {
            throw new NullPointerException();
        }
        T item = top.item;
        top = top.below;
        size--;
        return item;
    }

    Walk walk() {
        return new Walk();
    }

    public static void main(String[] args) {
        LinkedStack<String> stack = new LinkedStack<String>();
        stack.push("a");
        stack.push("b");
        stack.push("c");
        System.out.println(stack.pop());
        for (LinkedStack<String>.Walk walk = stack.walk(); walk.more();) {
            System.out.println(walk.next());
        }
        System.out.println(stack.size);
    }
}
