/** An interface, and two classes that have what it asks for. */
public class Areas {
    interface Shape {
        int area();
    }

    static class Square implements Shape {
        private final int side;

        Square(int side) {
            this.side = side;
        }

        public int area() {
            return side * side;
        }
    }

    static class Rectangle implements Shape {
        private final int width;
        private final int height;

        Rectangle(int width, int height) {
            this.width = width;
            this.height = height;
        }

        public int area() {
            return width * height;
        }
    }

    public static void main(String[] args) {
        Shape[] shapes = {new Square(3), new Rectangle(2, 7)};
        int sum = 0;
        for (Shape shape : shapes) {
            System.out.println(shape.area());
            sum += shape.area();
        }
        System.out.println(sum);
    }
}
