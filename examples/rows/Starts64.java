/** One thread more than there may be. */
class Starts64 extends Thread {
    public static void main(String[] args) {
        for (int i = 0; i < 64; i++) {
            new Starts64().start();
        }
    }
}
