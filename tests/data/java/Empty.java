/** A class with nothing in it but what the compiler adds. */
class Empty {
}
