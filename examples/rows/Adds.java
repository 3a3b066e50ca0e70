/** A constructor sets a field twice; after each, three threads add it up under a lock. */
class Adds extends Thread {
    static int total;
    final Adds from;
    int v;

    Adds() throws InterruptedException {
        from = null;
        v = 1;
        go(this);
        v = 2;
        go(this);
    }

    Adds(Adds from) {
        this.from = from;
    }

    static synchronized void add(int amount) {
        total += amount;
    }

    static void go(Adds from) throws InterruptedException {
        total = 0;
        Adds[] threads = new Adds[3];
        for (int i = 0; i < 3; i++) {
            threads[i] = new Adds(from);
            threads[i].start();
        }
        for (int i = 0; i < 3; i++) {
            threads[i].join();
        }
        System.out.println(total);
    }

    public void run() {
        add(from.v);
    }

    public static void main(String[] args) throws InterruptedException {
        new Adds();
    }
}
