/** Each exception that the machine itself throws, caught by its class. */
public class BuiltInFaults {
    static int depth;

    static void deeper() {
        depth++;
        deeper();
    }

    static char fault(int which) {
        Object text = "text";
        Object[] strings = new String[1];
        try {
            switch (which) {
                case 0:
                    which /= which;
                    break;
                case 1:
                    which = new int[] {5}[which];
                    break;
                case 2:
                    strings[0] = new Object();
                    break;
                case 3:
                    text = (Thread) text;
                    break;
                case 4:
                    text = new char[-which];
                    break;
                case 5:
                    text = null;
                    which = ((Object[]) text).length;
                    break;
                case 6:
                    which = "abc".charAt(which);
                    break;
                case 7:
                    deeper();
                    break;
                default:
                    return 'x';
            }
        } catch (ArithmeticException e) {
            return 'a';
        } catch (ArrayIndexOutOfBoundsException e) {
            return 'i';
        } catch (ArrayStoreException e) {
            return 's';
        } catch (ClassCastException e) {
            return 'c';
        } catch (NegativeArraySizeException e) {
            return 'n';
        } catch (NullPointerException e) {
            return 'p';
        } catch (StringIndexOutOfBoundsException e) {
            return 't';
        } catch (StackOverflowError e) {
            return 'o';
        } catch (Throwable e) {
            return '?';
        }
        return 'z';
    }

    public static void main(String[] args) {
        for (int which = 0; which < 9; which++) {
            System.out.print(fault(which));
        }
        System.out.println();
    }
}
