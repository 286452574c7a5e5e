/** Virtual calls in a loop: three classes below one, and a method that calls another. */
class Shapes {
    static abstract class Shape {
        int side;

        abstract int area();

        int scaled(int factor) {
            return area() * factor;
        }
    }

    static class Square extends Shape {
        int area() {
            return side * side;
        }
    }

    static class Cross extends Shape {
        int area() {
            return 5 * side;
        }
    }

    static class Frame extends Square {
        int scaled(int factor) {
            return area() - factor;
        }
    }

    public static void main(String[] arguments) {
        Shape[] shapes = new Shape[64];
        for (int i = 0; i < shapes.length; i++) {
            Shape shape;
            switch (i % 3) {
                case 0: shape = new Square(); break;
                case 1: shape = new Cross(); break;
                default: shape = new Frame(); break;
            }
            shape.side = i;
            shapes[i] = shape;
        }
        int sum = 0;
        for (int round = Size.of(); round > 0; round--) {
            for (int i = 0; i < shapes.length; i++) {
                sum += shapes[i].scaled(round);
            }
        }
        System.out.println(sum);
    }
}
