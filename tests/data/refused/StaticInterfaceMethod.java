/** A call of a static method of an interface: invokestatic of an InterfaceMethodref. */
class StaticInterfaceMethod {
    interface Maker {
        static int make() {
            return 1;
        }
    }

    static int made() {
        return Maker.make();
    }
}
