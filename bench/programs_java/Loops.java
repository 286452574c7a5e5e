/** Nested loops over ints, with no memory but local variables. */
class Loops {
    public static void main(String[] arguments) {
        int size = Size.of();
        int count = 0, mixed = 7;
        for (int a = 1; a <= size; a++) {
            for (int b = a; b <= size; b++) {
                for (int c = 1; c <= 10; c++) {
                    mixed = mixed * 31 + (a ^ b) - c;
                    if (mixed < 0) {
                        count++;
                    }
                }
            }
        }
        System.out.println(count);
        System.out.println(mixed);
    }
}
