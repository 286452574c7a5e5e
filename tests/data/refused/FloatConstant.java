/** A constant of type float: its pool entry is left out before the field is read. */
class FloatConstant {
    static final float HALF = 0.5f;
}
