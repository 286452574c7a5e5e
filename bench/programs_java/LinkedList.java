/** A singly linked list that is built, turned round and summed, again and again. */
class LinkedList {
    static class Node {
        int value;
        Node next;

        Node(int value, Node next) {
            this.value = value;
            this.next = next;
        }
    }

    static Node upTo(int length) {
        Node first = null;
        for (int i = 0; i < length; i++) {
            first = new Node(i, first);
        }
        return first;
    }

    static Node reversed(Node node) {
        Node before = null;
        while (node != null) {
            Node next = node.next;
            node.next = before;
            before = node;
            node = next;
        }
        return before;
    }

    static long weighted(Node node) {
        long sum = 0;
        int place = 1;
        for (; node != null; node = node.next) {
            sum += (long) node.value * place++;
        }
        return sum;
    }

    public static void main(String[] arguments) {
        long total = 0;
        for (int round = Size.of(); round > 0; round--) {
            Node list = upTo(500);
            total += weighted(list);
            list = reversed(list);
            total -= 3 * weighted(reversed(reversed(list)));
        }
        System.out.println(total);
    }
}
