/** Functions that call themselves and one another. */
public class Recursion {
    static long factorial(int n) {
        return n < 2 ? 1L : n * factorial(n - 1);
    }

    static int fibonacci(int n) {
        return n < 2 ? n : fibonacci(n - 1) + fibonacci(n - 2);
    }

    static int ackermann(int m, int n) {
        if (m == 0) {
            return n + 1;
        }
        if (n == 0) {
            return ackermann(m - 1, 1);
        }
        return ackermann(m - 1, ackermann(m, n - 1));
    }

    static boolean even(int n) {
        return n == 0 || odd(n - 1);
    }

    static boolean odd(int n) {
        return n != 0 && even(n - 1);
    }

    static void hanoi(int disks, char from, char to, char by) {
        if (disks == 0) {
            return;
        }
        hanoi(disks - 1, from, by, to);
        System.out.print(from);
        System.out.print(to);
        System.out.print(' ');
        hanoi(disks - 1, by, to, from);
    }

    public static void main(String[] args) {
        System.out.println(factorial(20));
        System.out.println(fibonacci(12));
        System.out.println(ackermann(2, 3));
        System.out.println(even(11) ? "even" : "odd");
        hanoi(3, 'A', 'C', 'B');
        System.out.println();
    }
}
