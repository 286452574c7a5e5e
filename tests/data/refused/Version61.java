/** A class file of version 61.0, past 52.0. */
class Version61 {
}
