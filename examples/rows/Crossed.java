/** Two threads that meet with a lock each, and then want each other's. */
class Crossed extends Thread {
    static final Object LEFT = new Object();
    static final Object RIGHT = new Object();
    static final Crossed PLACE = new Crossed();
    static int came;

    synchronized void meet() {
        came++;
        if (came == 2) {
            notifyAll();
        }
        while (came < 2) {
            try {
                wait();
            } catch (InterruptedException e) {
                throw new IllegalStateException();
            }
        }
    }

    static void take(Object first, Object second) {
        synchronized (first) {
            PLACE.meet();
            synchronized (second) {
                System.out.println(came);
            }
        }
    }

    public void run() {
        take(RIGHT, LEFT);
    }

    public static void main(String[] args) {
        new Crossed().start();
        take(LEFT, RIGHT);
    }
}
