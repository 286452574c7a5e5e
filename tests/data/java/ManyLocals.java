/** More than 256 local variables, so that loads, stores and iinc need the wide form. */
public class ManyLocals {
    static long run(int start) {
        long a0 = 0L, a1 = 1L, a2 = 2L, a3 = 3L, a4 = 4L, a5 = 5L, a6 = 6L, a7 = 7L, a8 = 8L, a9 = 9L;
        long a10 = 10L, a11 = 11L, a12 = 12L, a13 = 13L, a14 = 14L, a15 = 15L, a16 = 16L, a17 = 17L, a18 = 18L, a19 = 19L;
        long a20 = 20L, a21 = 21L, a22 = 22L, a23 = 23L, a24 = 24L, a25 = 25L, a26 = 26L, a27 = 27L, a28 = 28L, a29 = 29L;
        long a30 = 30L, a31 = 31L, a32 = 32L, a33 = 33L, a34 = 34L, a35 = 35L, a36 = 36L, a37 = 37L, a38 = 38L, a39 = 39L;
        long a40 = 40L, a41 = 41L, a42 = 42L, a43 = 43L, a44 = 44L, a45 = 45L, a46 = 46L, a47 = 47L, a48 = 48L, a49 = 49L;
        long a50 = 50L, a51 = 51L, a52 = 52L, a53 = 53L, a54 = 54L, a55 = 55L, a56 = 56L, a57 = 57L, a58 = 58L, a59 = 59L;
        long a60 = 60L, a61 = 61L, a62 = 62L, a63 = 63L, a64 = 64L, a65 = 65L, a66 = 66L, a67 = 67L, a68 = 68L, a69 = 69L;
        long a70 = 70L, a71 = 71L, a72 = 72L, a73 = 73L, a74 = 74L, a75 = 75L, a76 = 76L, a77 = 77L, a78 = 78L, a79 = 79L;
        long a80 = 80L, a81 = 81L, a82 = 82L, a83 = 83L, a84 = 84L, a85 = 85L, a86 = 86L, a87 = 87L, a88 = 88L, a89 = 89L;
        long a90 = 90L, a91 = 91L, a92 = 92L, a93 = 93L, a94 = 94L, a95 = 95L, a96 = 96L, a97 = 97L, a98 = 98L, a99 = 99L;
        long a100 = 100L, a101 = 101L, a102 = 102L, a103 = 103L, a104 = 104L, a105 = 105L, a106 = 106L, a107 = 107L, a108 = 108L, a109 = 109L;
        long a110 = 110L, a111 = 111L, a112 = 112L, a113 = 113L, a114 = 114L, a115 = 115L, a116 = 116L, a117 = 117L, a118 = 118L, a119 = 119L;
        long a120 = 120L, a121 = 121L, a122 = 122L, a123 = 123L, a124 = 124L, a125 = 125L, a126 = 126L, a127 = 127L, a128 = 128L, a129 = 129L;
        int count = start;
        long sum = 0L;
        Object text = "wide";
        int[] xs = {4, 5, 6};
        count += 1000;
        count -= 300;
        count++;
        for (int x : xs) {
            sum += x * count + a129;
        }
        if (text == null) {
            throw new NullPointerException();
        }
        start += 128;
        start -= 129;
        start += 32767;
        start -= 32768;
        start += 32768;
        return sum + start + a0 + a1 + a128;
    }

    public static void main(String[] args) {
        System.out.println(run(7));
    }
}
