import java.util.ArrayList;

/** A list that grows. */
public class Shopping {
    public static void main(String[] args) {
        ArrayList<String> list = new ArrayList<>();
        list.add("bread");
        list.add("milk");
        for (String item : list) {
            System.out.println(item);
        }
    }
}
