import left.Base;
import left.Low;
import right.Mid;

/** Selection, private methods and `super`, interfaces, arguments and results of each type. */
class Calls {
    interface Asked {
        int ask(int x);
    }

    interface Known extends Asked {
        long know(int x, long y);
    }

    static class One {
        String seen = name();

        String name() {
            return "one";
        }

        private String secret() {
            return "secret one";
        }

        String tell() {
            return secret();
        }

        static String shared() {
            return "shared one";
        }

        public int ask(int x) {
            return x + 1;
        }
    }

    static class Two extends One {
        String own = "set";

        String name() {
            return own == null ? "two, not set" : "two over ".concat(super.name());
        }

        String secret() {
            return "secret two";
        }

        static String shared() {
            return "shared two";
        }
    }

    static class Three extends Two implements Known {
        public long know(int x, long y) {
            return x * y;
        }
    }

    static class Four extends Three {
        String name() {
            return "four over ".concat(super.name());
        }

        public int ask(int x) {
            return 10 * super.ask(x);
        }
    }

    abstract static class Half implements Known {
        long twice(int x) {
            return know(ask(x), 2);
        }
    }

    static class Whole extends Half {
        public int ask(int x) {
            return x - 1;
        }

        public long know(int x, long y) {
            return x + y;
        }
    }

    static int count;

    static void all() {
        selection();
        privateAndStatic();
        interfaces();
        packages();
        mixedArguments();
        results();
        recursion();
        mostArguments();
        nullReceivers();
        operandsStay();
    }

    static void selection() {
        One[] all = {new One(), new Two(), new Three(), new Four()};
        for (int i = 0; i < all.length; i++) {
            new Line("selection").add(i).add(all[i].name()).add(all[i].ask(4)).add(all[i].seen)
                .print();
        }
    }

    static void privateAndStatic() {
        Two two = new Two();
        One one = two;
        new Line("private").add(one.tell()).add(two.secret()).add(one.secret()).print();
        new Line("static").add(One.shared()).add(Two.shared()).add(Four.shared()).print();
    }

    static void interfaces() {
        Known[] all = {new Three(), new Four(), new Whole()};
        for (int i = 0; i < all.length; i++) {
            Asked asked = all[i];
            new Line("interface").add(i).add(asked.ask(5)).add(all[i].ask(6))
                .add(all[i].know(7, 10000000000L)).print();
        }
        Half half = new Whole();
        new Line("abstract class").add(half.twice(3)).add(half.ask(3)).print();
    }

    /** A method without a modifier is overridden in its own package alone. */
    static void packages() {
        new Line("packages").add(Base.call(new Base())).add(Base.call(new Mid()))
            .add(Base.call(new Low())).add(Mid.callMid(new Mid())).add(Mid.callMid(new Low()))
            .print();
    }

    static Line mixed(int a, long b, String c, long d, byte e, int[] f, boolean g, char h, long i,
            short j) {
        return new Line("mixed").add(a).add(b).add(c).add(d).add(e).add(f.length).add(g).add(h)
            .add(i).add(j);
    }

    long weighed(long a, int b, long c) {
        return a * 100 + b * 10 + c;
    }

    static void mixedArguments() {
        mixed(-1, 5000000000L, "c", -5000000000L, (byte) -128, new int[3], true, '\uffff', 1L,
            (short) -32768).print();
        new Line("weighed").add(new Calls().weighed(3L, 2, 1L)).print();
    }

    static boolean truth(int x) {
        return x > 0;
    }

    static byte octet(int x) {
        return (byte) x;
    }

    static char unit(int x) {
        return (char) x;
    }

    static short half(int x) {
        return (short) x;
    }

    static int[] array(int x) {
        return x < 0 ? null : new int[x];
    }

    static void nothing() {
        count++;
    }

    static void results() {
        new Line("results").add(truth(1)).add(truth(0)).add(octet(200)).add(unit(-1))
            .add(half(40000)).add(array(2).length).add(array(-1) == null).print();
        count = 0;
        octet(1);
        new Calls().weighed(1, 1, 1);
        array(3);
        nothing();
        new Line("dropped results").add(count).print();
    }

    static long factorial(int n) {
        return n < 2 ? 1 : n * factorial(n - 1);
    }

    static int ackermann(int m, int n) {
        if (m == 0) {
            return n + 1;
        }
        return ackermann(m - 1, n == 0 ? 1 : ackermann(m, n - 1));
    }

    static boolean isEven(int n) {
        return n == 0 || isOdd(n - 1);
    }

    static boolean isOdd(int n) {
        return n != 0 && isEven(n - 1);
    }

    static void recursion() {
        new Line("recursion").add(factorial(20)).add(factorial(21)).add(ackermann(2, 4))
            .add(isEven(900)).add(isOdd(900)).print();
    }

    /** 255 places: 127 longs and an int. */
    static long most(int first,
            long a0, long a1, long a2, long a3, long a4, long a5, long a6, long a7, long a8, long a9,
            long b0, long b1, long b2, long b3, long b4, long b5, long b6, long b7, long b8, long b9,
            long c0, long c1, long c2, long c3, long c4, long c5, long c6, long c7, long c8, long c9,
            long d0, long d1, long d2, long d3, long d4, long d5, long d6, long d7, long d8, long d9,
            long e0, long e1, long e2, long e3, long e4, long e5, long e6, long e7, long e8, long e9,
            long f0, long f1, long f2, long f3, long f4, long f5, long f6, long f7, long f8, long f9,
            long g0, long g1, long g2, long g3, long g4, long g5, long g6, long g7, long g8, long g9,
            long h0, long h1, long h2, long h3, long h4, long h5, long h6, long h7, long h8, long h9,
            long i0, long i1, long i2, long i3, long i4, long i5, long i6, long i7, long i8, long i9,
            long j0, long j1, long j2, long j3, long j4, long j5, long j6, long j7, long j8, long j9,
            long k0, long k1, long k2, long k3, long k4, long k5, long k6, long k7, long k8, long k9,
            long l0, long l1, long l2, long l3, long l4, long l5, long l6, long l7, long l8, long l9,
            long m0, long m1, long m2, long m3, long m4, long m5, long m6) {
        long behind = first + a0 + a9 * 3 + g5 * 5 + m5 * 7;
        return behind * 1000 + m6;
    }

    static void mostArguments() {
        long sum = most(1,
            10, 11, 12, 13, 14, 15, 16, 17, 18, 19, 20, 21, 22, 23, 24, 25, 26, 27, 28, 29,
            30, 31, 32, 33, 34, 35, 36, 37, 38, 39, 40, 41, 42, 43, 44, 45, 46, 47, 48, 49,
            50, 51, 52, 53, 54, 55, 56, 57, 58, 59, 60, 61, 62, 63, 64, 65, 66, 67, 68, 69,
            70, 71, 72, 73, 74, 75, 76, 77, 78, 79, 80, 81, 82, 83, 84, 85, 86, 87, 88, 89,
            90, 91, 92, 93, 94, 95, 96, 97, 98, 99, 100, 101, 102, 103, 104, 105, 106, 107, 108, 109,
            110, 111, 112, 113, 114, 115, 116, 117, 118, 119, 120, 121, 122, 123, 124, 125, 126, 127,
            128, 129, 130, 131, 132, 133, 134, 135, 136);
        new Line("most arguments").add(sum).print();
    }

    static int counted() {
        count++;
        return count;
    }

    static void onNull(int which, Line line) {
        Known known = null;
        One one = null;
        switch (which) {
            case 0: line.add(one.ask(counted())); break;
            case 1: line.add(known.know(counted(), 1L)); break;
            case 2: line.add(one.secret()); break;
            default: ((Calls) null).weighed(1, counted(), counted());
        }
    }

    /** Arguments are computed before the receiver is found to be null. */
    static void nullReceivers() {
        for (int which = 0; which < 4; which++) {
            Line line = new Line("call on null").add(which);
            count = 0;
            try {
                onNull(which, line);
            } catch (NullPointerException e) {
                line.add(e).add(count);
            }
            line.print();
        }
    }

    /** Operands below the arguments are there again after the call. */
    static void operandsStay() {
        count = 5;
        long sum = 1000L + count * (counted() - counted() * (7L - factorial(3)));
        new Line("operands stay").add(sum).add(count).print();
    }
}
