/** Its method is gone later. */
class Lost {
    public int size() {
        return 2;
    }
}
