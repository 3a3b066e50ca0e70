/** Two threads that each hold what the other one waits for: a deadlock, in whatever order they go. */
public class Forks {
    private static final Object LEFT = new Object();
    private static final Object RIGHT = new Object();
    private static boolean leftHeld;
    private static boolean rightHeld;

    static class Other extends Thread {
        public void run() {
            synchronized (RIGHT) {
                rightHeld = true;
                while (!leftHeld) {
                    Thread.yield();
                }
                synchronized (LEFT) {
                    System.out.println("not reached");
                }
            }
        }
    }

    public static void main(String[] args) {
        new Other().start();
        synchronized (LEFT) {
            leftHeld = true;
            while (!rightHeld) {
                Thread.yield();
            }
            System.out.println("both held");
            synchronized (RIGHT) {
                System.out.println("not reached");
            }
        }
    }
}
