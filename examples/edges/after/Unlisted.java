/** It isn't of the interface any more. */
class Unlisted {
    public int size() {
        return 5;
    }
}
