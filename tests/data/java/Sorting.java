/** Quick sort, merge sort and a heap over arrays. */
public class Sorting {
    static void quick(int[] xs, int low, int high) {
        if (low >= high) {
            return;
        }
        int pivot = xs[(low + high) >>> 1];
        int i = low;
        int j = high;
        while (i <= j) {
            while (xs[i] < pivot) i++;
            while (xs[j] > pivot) j--;
            if (i <= j) {
                int x = xs[i];
                xs[i++] = xs[j];
                xs[j--] = x;
            }
        }
        quick(xs, low, j);
        quick(xs, i, high);
    }

    static long[] merged(long[] a, long[] b) {
        long[] all = new long[a.length + b.length];
        for (int i = 0, j = 0, k = 0; k < all.length; k++) {
            all[k] = j == b.length || i < a.length && a[i] <= b[j] ? a[i++] : b[j++];
        }
        return all;
    }

    static long[] merge(long[] xs) {
        if (xs.length < 2) {
            return xs;
        }
        int half = xs.length / 2;
        long[] a = new long[half];
        long[] b = new long[xs.length - half];
        for (int i = 0; i < xs.length; i++) {
            if (i < half) a[i] = xs[i];
            else b[i - half] = xs[i];
        }
        return merged(merge(a), merge(b));
    }

    static void sink(char[] heap, int at, int size) {
        for (int child; (child = 2 * at + 1) < size; at = child) {
            if (child + 1 < size && heap[child + 1] > heap[child]) child++;
            if (heap[at] >= heap[child]) return;
            char c = heap[at];
            heap[at] = heap[child];
            heap[child] = c;
        }
    }

    public static void main(String[] args) {
        int[] xs = {5, -3, 9, 0, 5, 2, 8, -7};
        quick(xs, 0, xs.length - 1);
        for (int x : xs) {
            System.out.print(x);
            System.out.print(' ');
        }
        System.out.println();
        for (long y : merge(new long[] {3L, 1L << 40, -1L, 2L})) {
            System.out.println(y);
        }
        char[] letters = {'q', 'e', 'z', 'a', 'm'};
        for (int i = letters.length / 2; i-- > 0;) sink(letters, i, letters.length);
        System.out.println(letters[0]);
    }
}
