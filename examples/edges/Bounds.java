/** An interface above which the constants stand. */
interface Bounds {
    long LEAST = "".length();
}
