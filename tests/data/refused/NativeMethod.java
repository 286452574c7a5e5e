/** A native method. */
class NativeMethod {
    native int outside();
}
