/** Inheritance: each animal makes the sound of its own class. */
public class Zoo {
    public static void main(String[] args) {
        Animal[] animals = {new Dog("Rex"), new Cat("Tom"), new Puppy("Max")};
        for (Animal animal : animals) {
            animal.speak();
        }
        System.out.println(animals[2] instanceof Dog ? "a dog" : "no dog");
    }
}

abstract class Animal {
    private final String name;

    Animal(String name) {
        this.name = name;
    }

    abstract String sound();

    void speak() {
        System.out.print(name);
        System.out.print(" says ");
        System.out.println(sound());
    }
}

class Dog extends Animal {
    Dog(String name) {
        super(name);
    }

    String sound() {
        return "woof";
    }
}

class Cat extends Animal {
    Cat(String name) {
        super(name);
    }

    String sound() {
        return "meow";
    }
}

class Puppy extends Dog {
    Puppy(String name) {
        super(name);
    }

    void speak() {
        super.speak();
        System.out.println("(and wags its tail)");
    }
}
