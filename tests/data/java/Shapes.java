/** An abstract class, its subclasses, and calls that select by the receiver. */
public class Shapes {
    public static void main(String[] args) {
        Shape[] shapes = {new Square(3), new Oblong(2, 5), new Cube(4)};
        long sum = 0;
        for (Shape shape : shapes) {
            System.out.println(shape.name());
            sum += shape.area();
        }
        System.out.println(sum);
        System.out.println(((Oblong) shapes[1]).width());
    }
}

abstract class Shape {
    private static int made;
    protected final int number;

    Shape() {
        number = ++made;
    }

    abstract long area();

    String name() {
        return "shape";
    }

    public final int number() {
        return number;
    }
}

class Square extends Shape {
    protected int side;

    Square(int side) {
        this.side = side;
    }

    @Override
    long area() {
        return (long) side * side;
    }

    @Override
    String name() {
        return "square";
    }
}

final class Cube extends Square {
    Cube(int side) {
        super(side);
    }

    @Override
    long area() {
        return 6 * super.area();
    }
}

class Oblong extends Shape {
    private int width;
    private int height;

    Oblong(int width, int height) {
        super();
        this.width = width;
        this.height = height;
    }

    Oblong(int side) {
        this(side, side);
    }

    int width() {
        return width;
    }

    @Override
    long area() {
        return (long) width * height;
    }
}
