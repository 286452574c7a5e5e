/** Arrays: the largest number, the sum, and the numbers in order. */
public class Largest {
    static int largest(int[] numbers) {
        int found = numbers[0];
        for (int number : numbers) {
            if (number > found) {
                found = number;
            }
        }
        return found;
    }

    static void sort(int[] numbers) {
        for (int end = numbers.length - 1; end > 0; end--) {
            for (int i = 0; i < end; i++) {
                if (numbers[i] > numbers[i + 1]) {
                    int kept = numbers[i];
                    numbers[i] = numbers[i + 1];
                    numbers[i + 1] = kept;
                }
            }
        }
    }

    public static void main(String[] args) {
        int[] numbers = {7, -3, 12, 0, 5};
        long sum = 0;
        for (int i = 0; i < numbers.length; i++) {
            sum += numbers[i];
        }
        System.out.println(largest(numbers));
        System.out.println(sum);
        sort(numbers);
        for (int number : numbers) {
            System.out.println(number);
        }
    }
}
