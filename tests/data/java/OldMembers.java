/** Attributes that a machine may skip: signatures, exceptions, inner classes, deprecation. */
public class OldMembers {
    /** @deprecated kept for old callers */
    @java.lang.Deprecated
    static int old(int n) throws Exception, Error {
        return n + 1;
    }

    @java.lang.Deprecated
    public static final long OLD = 3L;

    @SuppressWarnings("unchecked")
    static <T> T cast(Object o) {
        return (T) o;
    }

    static Holder holder = new Holder();

    static class Holder {
        @java.lang.Deprecated
        int value = (int) OLD;
    }

    public static void main(String[] args) throws Exception {
        System.out.println(old(holder.value));
        String text = cast("cast");
        System.out.println(text);
    }
}
