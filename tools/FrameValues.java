import java.util.function.IntBinaryOperator;
import java.util.function.LongBinaryOperator;

/**
 * Prints rows of crates/frame_ops_tests with the values that Java computes: those of numbers.rt,
 * of jumps by ints in branches.rt, and of increments in operands.rt. Run
 * `java tools/FrameValues.java`; its rows were copied once.
 */
public class FrameValues {
    static final int[] INTS = {
        Integer.MIN_VALUE, Integer.MIN_VALUE + 1, -1, 0, 1, Integer.MAX_VALUE
    };

    static final long[] LONGS = {
        Long.MIN_VALUE, Long.MIN_VALUE + 1, -1, 0, 1, Long.MAX_VALUE
    };

    /** Pairs of places in those lists: both ends, beside 0, 1 and -1. */
    static final int[][] PAIRS = {
        {0, 0}, {0, 2}, {0, 5}, {5, 4}, {5, 5}, {3, 0}
    };

    static final int[] COUNTS = {0, 1, 31, 32, 33, 63, 64, 65, -1};

    static void table(String name) {
        System.out.println("== " + name);
    }

    static void ints(String name, IntBinaryOperator operator) {
        for (int[] pair : PAIRS) {
            int a = INTS[pair[0]];
            int b = INTS[pair[1]];
            System.out.println(a + " " + b + " " + name + " -> " + result(operator, a, b));
        }
    }

    static String result(IntBinaryOperator operator, int a, int b) {
        try {
            return "" + operator.applyAsInt(a, b);
        } catch (ArithmeticException e) {
            return "Arithmetic";
        }
    }

    static void longs(String name, LongBinaryOperator operator) {
        for (int[] pair : PAIRS) {
            long a = LONGS[pair[0]];
            long b = LONGS[pair[1]];
            System.out.println(a + "L " + b + "L " + name + " -> " + result(operator, a, b));
        }
    }

    static String result(LongBinaryOperator operator, long a, long b) {
        try {
            return operator.applyAsLong(a, b) + "L";
        } catch (ArithmeticException e) {
            return "Arithmetic";
        }
    }

    static void divisions() {
        int[][] ints = {
            {7, 2}, {-7, 2}, {7, -2}, {-7, -2}, {Integer.MIN_VALUE, -1},
            {Integer.MIN_VALUE, Integer.MAX_VALUE}, {Integer.MAX_VALUE, Integer.MIN_VALUE},
            {0, -1}, {7, 0}, {0, 0}
        };
        for (int[] p : ints) {
            System.out.println(
                p[0] + " " + p[1] + " idiv -> " + result((int a, int b) -> a / b, p[0], p[1]));
            System.out.println(
                p[0] + " " + p[1] + " irem -> " + result((int a, int b) -> a % b, p[0], p[1]));
        }
        long[][] longs = {
            {7, 2}, {-7, 2}, {7, -2}, {-7, -2}, {Long.MIN_VALUE, -1},
            {Long.MIN_VALUE, Long.MAX_VALUE}, {Long.MAX_VALUE, Long.MIN_VALUE},
            {0, -1}, {7, 0}, {0, 0}
        };
        for (long[] p : longs) {
            System.out.println(
                p[0] + "L " + p[1] + "L ldiv -> " + result((long a, long b) -> a / b, p[0], p[1]));
            System.out.println(
                p[0] + "L " + p[1] + "L lrem -> " + result((long a, long b) -> a % b, p[0], p[1]));
        }
    }

    static void negations() {
        for (int a : INTS) {
            System.out.println(a + " ineg -> " + (-a));
        }
        for (long a : LONGS) {
            System.out.println(a + "L lneg -> " + (-a) + "L");
        }
    }

    static void shifts() {
        for (int k : COUNTS) {
            System.out.println("-5 " + k + " ishl -> " + (-5 << k));
            System.out.println("-5 " + k + " ishr -> " + (-5 >> k));
            System.out.println("-5 " + k + " iushr -> " + (-5 >>> k));
        }
        for (int k : COUNTS) {
            System.out.println("-5L " + k + " lshl -> " + (-5L << k) + "L");
            System.out.println("-5L " + k + " lshr -> " + (-5L >> k) + "L");
            System.out.println("-5L " + k + " lushr -> " + (-5L >>> k) + "L");
        }
        int max = Integer.MAX_VALUE;
        System.out.println(max + " 1 ishl -> " + (max << 1));
        System.out.println(max + " 31 ishr -> " + (max >> 31));
        System.out.println(max + " 30 iushr -> " + (max >>> 30));
        long most = Long.MAX_VALUE;
        System.out.println(most + "L 1 lshl -> " + (most << 1) + "L");
        System.out.println(most + "L 63 lshr -> " + (most >> 63) + "L");
        System.out.println(most + "L 62 lushr -> " + (most >>> 62) + "L");
    }

    static void bits() {
        int[][] ints = {
            {12, 10}, {-12, 10}, {Integer.MIN_VALUE, -1}, {Integer.MIN_VALUE, Integer.MAX_VALUE}
        };
        for (int[] p : ints) {
            System.out.println(p[0] + " " + p[1] + " iand -> " + (p[0] & p[1]));
            System.out.println(p[0] + " " + p[1] + " ior -> " + (p[0] | p[1]));
            System.out.println(p[0] + " " + p[1] + " ixor -> " + (p[0] ^ p[1]));
        }
        long[][] longs = {
            {12, 10}, {-12, 10}, {Long.MIN_VALUE, -1}, {Long.MIN_VALUE, Long.MAX_VALUE}
        };
        for (long[] p : longs) {
            System.out.println(p[0] + "L " + p[1] + "L land -> " + (p[0] & p[1]) + "L");
            System.out.println(p[0] + "L " + p[1] + "L lor -> " + (p[0] | p[1]) + "L");
            System.out.println(p[0] + "L " + p[1] + "L lxor -> " + (p[0] ^ p[1]) + "L");
        }
    }

    static void conversions() {
        int[] ints = {
            -1, 127, 128, 255, 256, -129, 32767, 32768, 65535, 65536, -32769, Integer.MIN_VALUE
        };
        for (int a : ints) {
            System.out.println(a + " i2b -> " + (byte) a);
            System.out.println(a + " i2c -> " + (int) (char) a);
            System.out.println(a + " i2s -> " + (short) a);
        }
        for (int a : INTS) {
            System.out.println(a + " i2l -> " + (long) a + "L");
        }
        long[] longs = {
            0, -1, 2147483647L, 2147483648L, 4294967295L, 4294967296L, -2147483648L, -2147483649L,
            Long.MIN_VALUE, Long.MAX_VALUE
        };
        for (long a : longs) {
            System.out.println(a + "L l2i -> " + (int) a);
        }
    }

    static void comparisons() {
        for (int[] pair : PAIRS) {
            long a = LONGS[pair[0]];
            long b = LONGS[pair[1]];
            System.out.println(a + "L " + b + "L lcmp -> " + Long.compare(a, b));
        }
    }

    static String jump(boolean taken) {
        return taken ? "to 12" : "on";
    }

    static void branches() {
        int[][] pairs = {
            {3, 3}, {Integer.MIN_VALUE, Integer.MAX_VALUE},
            {Integer.MAX_VALUE, Integer.MIN_VALUE}, {-1, 0}
        };
        for (int[] p : pairs) {
            String front = p[0] + " " + p[1] + " if_icmp";
            String middle = ".0008 -> ";
            System.out.println(front + "eq" + middle + jump(p[0] == p[1]));
            System.out.println(front + "ne" + middle + jump(p[0] != p[1]));
            System.out.println(front + "lt" + middle + jump(p[0] < p[1]));
            System.out.println(front + "ge" + middle + jump(p[0] >= p[1]));
            System.out.println(front + "gt" + middle + jump(p[0] > p[1]));
            System.out.println(front + "le" + middle + jump(p[0] <= p[1]));
        }
        for (int a : new int[] {Integer.MIN_VALUE, -1, 0, 1}) {
            String front = a + " if";
            String middle = ".0008 -> ";
            System.out.println(front + "eq" + middle + jump(a == 0));
            System.out.println(front + "ne" + middle + jump(a != 0));
            System.out.println(front + "lt" + middle + jump(a < 0));
            System.out.println(front + "ge" + middle + jump(a >= 0));
            System.out.println(front + "gt" + middle + jump(a > 0));
            System.out.println(front + "le" + middle + jump(a <= 0));
        }
    }

    static void increments() {
        int[][] rows = {
            {Integer.MAX_VALUE, 1}, {Integer.MAX_VALUE, 127}, {Integer.MIN_VALUE, -1},
            {Integer.MIN_VALUE, -128}, {5, 0}, {5, -5}
        };
        for (int[] r : rows) {
            System.out.printf("%d | iinc.00.%02x -> %d |%n", r[0], r[1] & 0xff, r[0] + r[1]);
        }
        int[][] wide = {{Integer.MAX_VALUE, 32767}, {Integer.MIN_VALUE, -32768}, {5, 256}};
        for (int[] r : wide) {
            int by = r[1] & 0xffff;
            System.out.printf("%d | wide.iinc.0000.%04x -> %d |%n", r[0], by, r[0] + r[1]);
        }
    }

    public static void main(String[] words) {
        table("SUMS");
        ints("iadd", (a, b) -> a + b);
        ints("isub", (a, b) -> a - b);
        longs("ladd", (a, b) -> a + b);
        longs("lsub", (a, b) -> a - b);
        table("PRODUCTS");
        ints("imul", (a, b) -> a * b);
        longs("lmul", (a, b) -> a * b);
        table("QUOTIENTS");
        divisions();
        table("NEGATIONS");
        negations();
        table("SHIFTS");
        shifts();
        table("BITS");
        bits();
        table("CONVERSIONS");
        conversions();
        table("COMPARISONS");
        comparisons();
        table("BRANCHES");
        branches();
        table("INCREMENTS");
        increments();
    }
}
