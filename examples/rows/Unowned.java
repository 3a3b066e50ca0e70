/** A notify of an object that its thread doesn't own. */
class Unowned {
    public static void main(String[] args) {
        new Object().notify();
    }
}
