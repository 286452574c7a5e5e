/** A search tree of text keys with its nodes in a nested class. */
public class Tree {
    private static final class Node {
        final String key;
        int count = 1;
        Node left, right;

        Node(String key) {
            this.key = key;
        }
    }

    private Node root;
    private int nodes;

    static int order(String a, String b) {
        int length = a.length() < b.length() ? a.length() : b.length();
        for (int i = 0; i < length; i++) {
            int difference = a.charAt(i) - b.charAt(i);
            if (difference != 0) {
                return difference;
            }
        }
        return a.length() - b.length();
    }

    void add(String key) {
        root = added(root, key);
    }

    private Node added(Node node, String key) {
        if (node == null) {
            nodes++;
            return new Node(key);
        }
        int order = order(key, node.key);
        if (order == 0) {
            node.count++;
        } else if (order < 0) {
            node.left = added(node.left, key);
        } else {
            node.right = added(node.right, key);
        }
        return node;
    }

    static void print(Node node) {
        if (node != null) {
            print(node.left);
            System.out.print(node.key);
            System.out.print(' ');
            System.out.println(node.count);
            print(node.right);
        }
    }

    public static void main(String[] args) {
        Tree tree = new Tree();
        String[] words = {"to", "be", "or", "not", "to", "be", "that", "is"};
        for (String word : words) {
            tree.add(word);
        }
        print(tree.root);
        System.out.println(tree.nodes);
    }
}
