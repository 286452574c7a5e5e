/** A binary search tree of at most 4,096 keys that stays alive: insertion and walks by recursion. */
class Tree {
    int key;
    Tree less, more;

    Tree(int key) {
        this.key = key;
    }

    boolean insert(int wanted) {
        if (wanted == key) {
            return false;
        }
        if (wanted < key) {
            if (less == null) {
                less = new Tree(wanted);
                return true;
            }
            return less.insert(wanted);
        }
        if (more == null) {
            more = new Tree(wanted);
            return true;
        }
        return more.insert(wanted);
    }

    int height() {
        int left = less == null ? 0 : less.height(), right = more == null ? 0 : more.height();
        return 1 + (left > right ? left : right);
    }

    long sum() {
        return key + (less == null ? 0L : less.sum()) + (more == null ? 0L : more.sum());
    }

    public static void main(String[] arguments) {
        Tree tree = new Tree(0);
        int next = 42, inserted = 1;
        for (int i = Size.of(); i > 0; i--) {
            next = next * 1664525 + 1013904223;
            if (tree.insert(next >>> 20)) {
                inserted++;
            }
        }
        System.out.println(inserted);
        System.out.println(tree.height());
        System.out.println(tree.sum());
    }
}
