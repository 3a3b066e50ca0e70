/** Its method isn't public later. */
class Narrowed {
    public int size() {
        return 3;
    }
}
