/** Sorts an array of ints in place. */
class Quicksort {
    static void sort(int[] a, int from, int to) {
        while (from < to) {
            int pivot = a[(from + to) >>> 1], i = from, j = to;
            while (i <= j) {
                while (a[i] < pivot) {
                    i++;
                }
                while (a[j] > pivot) {
                    j--;
                }
                if (i <= j) {
                    int kept = a[i];
                    a[i++] = a[j];
                    a[j--] = kept;
                }
            }
            if (j - from < to - i) {
                sort(a, from, j);
                from = i;
            } else {
                sort(a, i, to);
                to = j;
            }
        }
    }

    public static void main(String[] arguments) {
        int size = Size.of();
        int[] a = new int[size];
        int next = 12345;
        for (int i = 0; i < size; i++) {
            next = next * 1103515245 + 12345;
            a[i] = next >>> 8;
        }
        sort(a, 0, size - 1);
        int wrong = 0, hash = 0;
        for (int i = 0; i < size; i++) {
            hash = hash * 31 + a[i];
            if (i > 0 && a[i - 1] > a[i]) {
                wrong++;
            }
        }
        System.out.println(wrong);
        System.out.println(hash);
    }
}
