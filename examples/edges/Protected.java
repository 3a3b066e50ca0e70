/** Its method is protected later. */
class Protected {
    public int size() {
        return 4;
    }
}
