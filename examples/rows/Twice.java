/** A thread is started once: a second start raises. */
class Twice extends Thread {
    public void run() {
        System.out.println(1);
    }

    public static void main(String[] args) throws InterruptedException {
        Twice thread = new Twice();
        thread.start();
        thread.join();
        try {
            thread.start();
        } catch (IllegalThreadStateException e) {
            System.out.println(2);
        }
    }
}
