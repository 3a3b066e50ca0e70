/** A producer and a consumer that hand on 100 numbers through one place. */
public class Buffer {
    private int item;
    private boolean full;

    synchronized void put(int value) {
        while (full) {
            sleepHere();
        }
        item = value;
        full = true;
        notifyAll();
    }

    synchronized int take() {
        while (!full) {
            sleepHere();
        }
        full = false;
        notifyAll();
        return item;
    }

    private void sleepHere() {
        try {
            wait();
        } catch (InterruptedException e) {
            throw new IllegalStateException();
        }
    }

    static class Producer extends Thread {
        private final Buffer buffer;

        Producer(Buffer buffer) {
            this.buffer = buffer;
        }

        public void run() {
            for (int i = 1; i <= 100; i++) {
                buffer.put(i);
            }
        }
    }

    public static void main(String[] args) {
        Buffer buffer = new Buffer();
        new Producer(buffer).start();
        int sum = 0;
        for (int i = 1; i <= 100; i++) {
            sum += buffer.take();
        }
        System.out.println(sum);
    }
}
