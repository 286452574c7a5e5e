/** Every operation of int, the wrapping ones at the ends of the range. */
public class Arithmetic {
    static int mix(int a, int b) {
        return (a + b) * (a - b) ^ (a & b) | ~a;
    }

    static int divide(int a, int b) {
        return a / b * 1000 + a % b;
    }

    static int shifts(int a, int count) {
        return (a << count) + (a >> count) + (a >>> count);
    }

    static int narrow(int a) {
        return (byte) a + (short) a + (char) a;
    }

    public static void main(String[] args) {
        System.out.println(mix(7, -3));
        System.out.println(divide(-17, 5));
        System.out.println(divide(Integer.MIN_VALUE, -1));
        System.out.println(shifts(-123456789, 37));
        System.out.println(narrow(0x12345));
        System.out.println(-Integer.MIN_VALUE);
    }
}
