/** A thread ends by an exception; the other one then waits for ever. */
public class Wait extends Thread {
    static final Object lock = new Object();

    public void run() {
        throw new IllegalStateException("run");
    }

    public static void main(String[] args) throws InterruptedException {
        Thread other = new Wait();
        other.start();
        other.join();
        System.out.println("waits");
        synchronized (lock) {
            lock.wait();
        }
        System.out.println("never");
    }
}
