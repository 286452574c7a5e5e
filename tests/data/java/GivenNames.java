/** Constants of each type in an interface, beside a field that is computed. */
interface GivenNames {
    int NUMBER = 2147483647;
    long FAR = -9223372036854775808L;
    byte SMALL = 127;
    short SHORT = 32767;
    char SIGN = 'x';
    boolean YES = true;
    String NAME = "names";

    int EARLY = Reading.lookAtNames("interface");
}
