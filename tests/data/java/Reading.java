/** Reads the constants of other classes when it runs: it is compiled with the classes of stub/. */
class Reading {
    static int look(String text) {
        System.out.println(text);
        System.out.println(Given.INT);
        System.out.println(Given.TEXT);
        return Given.late;
    }

    static int lookAtNames(String text) {
        System.out.println(text);
        System.out.println(GivenNames.NUMBER);
        System.out.println(GivenNames.EARLY);
        return 9;
    }

    static void given() {
        System.out.println(Given.LONG);
        System.out.println(Given.INT);
        System.out.println(Given.BYTE);
        System.out.println(Given.SHORT);
        System.out.println((int) Given.CHAR);
        System.out.println(Given.TRUE ? 1 : 0);
        System.out.println(Given.TEXT);
        System.out.println(Given.TEXT.length());
        System.out.println(Given.early);
        System.out.println(Given.late);
    }

    static void names() {
        System.out.println(GivenNames.SIGN);
        System.out.println(GivenNames.NUMBER);
        System.out.println(GivenNames.FAR);
        System.out.println(GivenNames.SMALL);
        System.out.println(GivenNames.SHORT);
        System.out.println(GivenNames.YES ? 1 : 0);
        System.out.println(GivenNames.NAME);
        System.out.println(GivenNames.EARLY);
    }

    public static void main(String[] arguments) {
        System.out.println(GivenAlone.NUMBER);
        System.out.println(GivenAlone.NAME);
        given();
        names();
        System.out.println(GivenAlone.NAME == "alone" ? 1 : 0);
        System.out.println(Given.TEXT == "text" ? 1 : 0);
    }
}
