// The fields of GivenAlone, none a constant, so that Reading is compiled to read them when it runs.
class GivenAlone {
    static int NUMBER;
    static String NAME;
}
