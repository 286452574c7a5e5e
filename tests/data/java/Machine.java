/** A small machine that interprets a program given as ints: one large switch in a loop. */
public class Machine {
    static final int PUSH = 0, ADD = 1, MUL = 2, SUB = 3, DUP = 4, SWAP = 5, JUMP = 6, ZERO = 7, PRINT = 8, STOP = 9;

    private final int[] program;
    private final int[] stack = new int[16];
    private int depth;
    private int at;

    Machine(int... program) {
        this.program = program;
    }

    private int pop() {
        return stack[--depth];
    }

    private void push(int n) {
        stack[depth++] = n;
    }

    boolean step() {
        int a, b;
        switch (program[at++]) {
            case PUSH: push(program[at++]); return true;
            case ADD: push(pop() + pop()); return true;
            case MUL: push(pop() * pop()); return true;
            case SUB: b = pop(); a = pop(); push(a - b); return true;
            case DUP: a = pop(); push(a); push(a); return true;
            case SWAP: b = pop(); a = pop(); push(b); push(a); return true;
            case JUMP: at = program[at]; return true;
            case ZERO: at = pop() == 0 ? program[at] : at + 1; return true;
            case PRINT: System.out.println(pop()); return true;
            case STOP: return false;
            default: throw new IllegalArgumentException();
        }
    }

    public static void main(String[] args) {
        Machine machine = new Machine(
            PUSH, 3, DUP, PRINT, PUSH, 1, SUB, DUP, ZERO, 12, JUMP, 2, STOP);
        int steps = 0;
        while (machine.step()) {
            steps++;
        }
        System.out.println(steps);
        try {
            new Machine(99).step();
        } catch (IllegalArgumentException e) {
            System.out.println("unknown");
        }
    }
}
