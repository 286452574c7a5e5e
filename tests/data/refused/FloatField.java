/** A field of type float: its descriptor is left out. */
class FloatField {
    float half;
}
