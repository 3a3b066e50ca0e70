/** The method is abstract now. */
abstract class Gone {
    abstract int size();
}
