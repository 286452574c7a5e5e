/** Fields of each type, static and of an instance, hidden by a subclass, changed in each way. */
public class Fields {
    byte b = 1;
    short s = 2;
    char c = 3;
    int i = 4;
    long j = 5;
    boolean z = true;
    String text = "six";
    int[] ints = {7};
    static byte sb;
    static long sj = 1L << 62;
    static Fields head;
    Fields next;

    static class Hiding extends Fields {
        int i = 40;

        int both() {
            return i * 1000 + super.i;
        }
    }

    int change() {
        b += 300;
        s++;
        --c;
        i <<= 3;
        j = j * j - i++;
        z = !z;
        ints[0] = i = (int) j;
        sb = b;
        sj >>>= sb & 7;
        return b + s + c + i + (z ? 1 : 0) + ints[0];
    }

    public static void main(String[] args) {
        Fields f = new Fields();
        head = f;
        head.next = new Hiding();
        head.next.next = f;
        System.out.println(f.change());
        System.out.println(f.j);
        System.out.println(sj);
        System.out.println(((Hiding) head.next).both());
        System.out.println(head.next.i);
        System.out.println(head.next.next.next.next.text);
    }
}
