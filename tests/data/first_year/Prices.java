/** A line made by String.format. */
public class Prices {
    public static void main(String[] args) {
        String item = "bread";
        System.out.println(String.format("%s costs %s", item, "3 euros"));
    }
}
