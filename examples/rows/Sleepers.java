/** 64 threads that all wait, the last one behind notifies that find nobody. */
class Sleepers extends Thread {
    static final Object LOCK = new Object();

    public void run() {
        synchronized (LOCK) {
            try {
                LOCK.wait();
            } catch (InterruptedException e) {
                System.out.println(1);
            }
        }
    }

    public static void main(String[] args) {
        Object other = new Object();
        synchronized (other) {
            other.notify();
            other.notifyAll();
        }
        for (int i = 0; i < 63; i++) {
            new Sleepers().start();
        }
        new Sleepers().run();
    }
}
