/** An interface with a constant. */
interface Bounds {
    long LEAST = -9223372036854775808L;
}
