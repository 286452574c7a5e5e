/** A small machine of its own: a loop over codes in an array, chosen by a switch. */
class Switch {
    static int run(int[] code, int n) {
        int[] stack = new int[16];
        int top = 0, at = 0, counter = n, sum = 0;
        for (;;) {
            switch (code[at++]) {
                case 0: return sum;
                case 1: stack[top++] = counter; break;
                case 2: stack[top++] = code[at++]; break;
                case 3: top--; stack[top - 1] *= stack[top]; break;
                case 4: top--; stack[top - 1] ^= stack[top]; break;
                case 5: sum += stack[--top]; break;
                case 6: counter--; break;
                case 7: at = counter > 0 ? code[at] : at + 1; break;
                default: return -1;
            }
        }
    }

    public static void main(String[] arguments) {
        int[] code = { 1, 2, 17, 3, 1, 4, 5, 6, 7, 0, 0 };
        System.out.println(run(code, Size.of()));
    }
}
