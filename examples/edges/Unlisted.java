/** It isn't of the interface later. */
class Unlisted implements Versions.Sized {
    public int size() {
        return 5;
    }
}
