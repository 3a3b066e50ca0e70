/** Recursion, longs, arrays, objects, texts, two threads with a lock, a cast that fails. */
public class Main implements Runnable {
    static int total;
    static final Object lock = new Object();
    final int from;

    Main(int from) {
        this.from = from;
    }

    public void run() {
        for (int i = from; i < from + 10; i++) {
            synchronized (lock) {
                total += i;
            }
        }
    }

    /** In how many ways queens can stand on the rows that are left. */
    static int queens(int size, int row, int columns, int rising, int falling) {
        if (row == size) {
            return 1;
        }
        int ways = 0;
        for (int column = 0; column < size; column++) {
            int bit = 1 << column;
            if ((columns & bit) == 0 && (rising & 1 << row + column) == 0
                    && (falling & 1 << row - column + size) == 0) {
                ways += queens(size, row + 1, columns | bit, rising | 1 << row + column,
                    falling | 1 << row - column + size);
            }
        }
        return ways;
    }

    static long power(long base, int exponent) {
        long product = 1;
        while (exponent > 0) {
            if ((exponent & 1) == 1) {
                product *= base;
            }
            base *= base;
            exponent >>= 1;
        }
        return product;
    }

    static String spelled(Cell cell) {
        StringBuffer text = new StringBuffer();
        while (cell != null) {
            text.append(cell.value).append(' ');
            cell = cell.next;
        }
        return text.toString();
    }

    public static void main(String[] args) throws InterruptedException {
        System.out.println(queens(6, 0, 0, 0, 0));
        System.out.println(power(7, 30));
        Cell cells = null;
        int[][] rows = new int[5][3];
        for (int i = 0; i < rows.length; i++) {
            rows[i][2] = i * i;
            cells = new Cell(rows[i][2], cells);
        }
        System.out.println(spelled(cells));
        try {
            System.out.println(rows[4][3]);
        } catch (ArrayIndexOutOfBoundsException e) {
            System.out.println("outside");
        }
        Thread one = new Thread(new Main(0));
        Thread two = new Thread(new Main(10));
        one.start();
        two.start();
        one.join();
        two.join();
        System.out.println(total);
        Object object = cells;
        String text = (String) object;
        System.out.println(text);
    }
}
