/** An interface with nothing in it. */
public interface Marker {
}
