/** Two threads, each with 1,000 calls of a synchronized increment. */
class Counts extends Thread {
    static int count;

    static synchronized void increment() {
        count++;
    }

    public void run() {
        for (int i = 0; i < 1000; i++) {
            increment();
        }
    }

    public static void main(String[] args) throws InterruptedException {
        Counts one = new Counts();
        Counts two = new Counts();
        one.start();
        two.start();
        one.join();
        two.join();
        System.out.println(count);
    }
}
