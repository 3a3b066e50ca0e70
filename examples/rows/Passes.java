/** A producer puts 1 to 100 into four places, and a consumer sums them. */
class Passes extends Thread {
    static final int[] PLACES = new int[4];
    static final Passes BUFFER = new Passes();
    static int from;
    static int to;
    static int sum;

    synchronized void put(int item) throws InterruptedException {
        while (to - from == 4) {
            wait();
        }
        PLACES[to & 3] = item;
        to++;
        notifyAll();
    }

    synchronized int take() throws InterruptedException {
        while (to == from) {
            wait();
        }
        int item = PLACES[from & 3];
        from++;
        notifyAll();
        return item;
    }

    public void run() {
        try {
            for (int i = 0; i < 100; i++) {
                sum += BUFFER.take();
            }
        } catch (InterruptedException e) {
            throw new IllegalStateException();
        }
    }

    public static void main(String[] args) throws InterruptedException {
        Passes consumer = new Passes();
        consumer.start();
        for (int i = 1; i <= 100; i++) {
            BUFFER.put(i);
        }
        consumer.join();
        System.out.println(sum);
    }
}
