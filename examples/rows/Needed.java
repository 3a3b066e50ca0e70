/** An initialiser joins a thread that needs its class: neither goes on. */
class Needed extends Thread {
    static class Needs {
        static int value = made();

        static int made() {
            Thread thread = new Needed();
            thread.start();
            try {
                thread.join();
            } catch (InterruptedException e) {
                return 0;
            }
            return 3;
        }
    }

    public void run() {
        System.out.println(Needs.value);
    }

    public static void main(String[] args) {
        System.out.println(Needs.value);
    }
}
