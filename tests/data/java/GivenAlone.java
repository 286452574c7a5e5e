/** An interface whose fields are all constants: it has no initializer. */
interface GivenAlone {
    int NUMBER = 5;
    String NAME = "alone";
}
