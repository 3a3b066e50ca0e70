/** Its method is abstract later. */
class Gone {
    int size() {
        return 1;
    }
}
