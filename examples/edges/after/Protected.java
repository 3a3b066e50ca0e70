/** The method is protected now. */
class Protected {
    protected int size() {
        return 4;
    }
}
