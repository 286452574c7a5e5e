/** A static synchronized method. */
class StaticSynchronized {
    static synchronized void act() {
    }
}
