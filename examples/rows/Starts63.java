/** As many threads as there may be: 63 beside the first. */
class Starts63 extends Thread {
    public static void main(String[] args) {
        for (int i = 0; i < 63; i++) {
            new Starts63().start();
        }
    }
}
