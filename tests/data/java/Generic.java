/** Generics: bridges, bounded types, generic methods, and casts that erasure leaves. */
public class Generic {
    interface Ordered<T> {
        int compare(T other);
    }

    interface Function<A, B> {
        B apply(A a);
    }

    static class Number implements Ordered<Number> {
        final int value;

        Number(int value) {
            this.value = value;
        }

        @Override
        public int compare(Number other) {
            return value < other.value ? -1 : value == other.value ? 0 : 1;
        }
    }

    static class Pair<A, B extends Ordered<B>> {
        A first;
        B second;

        Pair(A first, B second) {
            this.first = first;
            this.second = second;
        }

        <C> Pair<C, B> withFirst(C c) {
            return new Pair<C, B>(c, second);
        }
    }

    static class Length implements Function<String, Number> {
        @Override
        public Number apply(String s) {
            return new Number(s.length());
        }
    }

    static <T extends Ordered<T>> T largest(T[] items) {
        T best = items[0];
        for (T item : items) {
            if (item.compare(best) > 0) {
                best = item;
            }
        }
        return best;
    }

    public static void main(String[] args) {
        Function<String, Number> length = new Length();
        Number[] numbers = {length.apply("four"), length.apply("sixsix"), new Number(5)};
        System.out.println(largest(numbers).value);
        Pair<String, Number> pair = new Pair<Object, Number>(null, numbers[0]).withFirst("first");
        System.out.println(pair.first);
        System.out.println(pair.second.compare(numbers[1]));
    }
}
