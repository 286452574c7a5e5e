/** A producer and a consumer with a buffer of three places between them, each access with its monitor held. */
public class BoundedBuffer {
    private final int[] places = new int[3];
    private int first;
    private int count;

    /** Puts a number in, or answers false where the buffer is full. */
    synchronized boolean put(int number) {
        if (count == places.length) {
            return false;
        }
        places[(first + count) % places.length] = number;
        count++;
        return true;
    }

    /** Takes the number that was put in first, or answers -1 where the buffer is empty. */
    synchronized int take() {
        if (count == 0) {
            return -1;
        }
        int number = places[first];
        first = (first + 1) % places.length;
        count--;
        return number;
    }

    static class Producer extends Thread {
        private final BoundedBuffer buffer;

        Producer(BoundedBuffer buffer) {
            this.buffer = buffer;
        }

        @Override
        public void run() {
            for (int number = 1; number <= 20; number++) {
                while (!buffer.put(number * number)) {
                    continue;
                }
            }
            while (!buffer.put(0)) {
                continue;
            }
        }
    }

    static class Consumer extends Thread {
        private final BoundedBuffer buffer;

        Consumer(BoundedBuffer buffer) {
            this.buffer = buffer;
        }

        @Override
        public void run() {
            int sum = 0;
            while (true) {
                int number = buffer.take();
                if (number == 0) {
                    break;
                }
                if (number > 0) {
                    System.out.println(number);
                    sum += number;
                }
            }
            System.out.println(sum);
        }
    }

    public static void main(String[] args) {
        BoundedBuffer buffer = new BoundedBuffer();
        new Consumer(buffer).start();
        new Producer(buffer).start();
    }
}
