/** Sorts an array of longs by a heap, its steps in instance methods that use fields. */
class Heapsort {
    long[] a;
    int length;

    Heapsort(int size) {
        a = new long[size];
        length = size;
        long next = 1;
        for (int i = 0; i < size; i++) {
            next = next * 6364136223846793005L + 1442695040888963407L;
            a[i] = next >> 20;
        }
    }

    private void sink(int root) {
        for (;;) {
            int child = 2 * root + 1;
            if (child >= length) {
                return;
            }
            if (child + 1 < length && a[child] < a[child + 1]) {
                child++;
            }
            if (a[root] >= a[child]) {
                return;
            }
            swap(root, child);
            root = child;
        }
    }

    private void swap(int i, int j) {
        long kept = a[i];
        a[i] = a[j];
        a[j] = kept;
    }

    void sort() {
        for (int root = length / 2 - 1; root >= 0; root--) {
            sink(root);
        }
        while (length > 1) {
            length--;
            swap(0, length);
            sink(0);
        }
    }

    public static void main(String[] arguments) {
        int size = Size.of();
        Heapsort heap = new Heapsort(size);
        heap.sort();
        long hash = 0;
        for (int i = 0; i < size; i++) {
            hash = hash * 31 + heap.a[i];
        }
        System.out.println(hash);
        System.out.println(heap.a[0] <= heap.a[size - 1] ? "sorted" : "not sorted");
    }
}
