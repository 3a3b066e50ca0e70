/** Fields and statics of each type: first values, extremes, null receivers, hidden ones. */
class Fields {
    static class Each {
        boolean z;
        byte b;
        char c;
        short s;
        int i;
        long j;
        String t;
        Object o;
        int[] a;
    }

    static boolean z;
    static byte b;
    static char c;
    static short s;
    static int i;
    static long j;
    static String t;
    static Object o;
    static int[] a;

    static class Upper {
        int x = 1;
        long kept = 10;
        static int count;
        static int hidden;

        int upperX() {
            return x;
        }
    }

    static class Lower extends Upper {
        long x = 2;
        int behind = 20;
        static int hidden;

        int superX() {
            return super.x;
        }
    }

    static class Lowest extends Lower {
        String x = "lowest";

        long superX(int levels) {
            return levels == 1 ? super.x : ((Upper) this).x;
        }
    }

    static void all() {
        firstValues();
        extremes(true, (byte) 127, '\uffff', (short) 32767, 2147483647, 9223372036854775807L);
        extremes(false, (byte) -128, '\0', (short) -32768, -2147483648, -9223372036854775808L);
        references();
        for (int type = 0; type < 9; type++) {
            nullReceiver(type);
        }
        faultBehindOperands();
        hiddenFields();
        hiddenStatics();
        twoObjects();
        compound();
    }

    static void firstValues() {
        Each it = new Each();
        new Line("first values").add(it.z).add(it.b).add(it.c).add(it.s).add(it.i).add(it.j)
            .add(it.t).add(it.o == null).add(it.a == null).print();
        new Line("first statics").add(z).add(b).add(c).add(s).add(i).add(j).add(t).add(o == null)
            .add(a == null).print();
    }

    static void extremes(boolean truth, byte octet, char unit, short half, int word, long wide) {
        Each it = new Each();
        it.z = z = truth;
        it.b = b = octet;
        it.c = c = unit;
        it.s = s = half;
        it.i = i = word;
        it.j = j = wide;
        new Line("extreme values").add(it.z).add(it.b).add(it.c).add(it.s).add(it.i).add(it.j)
            .print();
        new Line("extreme statics").add(z).add(b).add(c).add(s).add(i).add(j).print();
    }

    static void references() {
        Each it = new Each();
        it.o = it;
        it.a = new int[2];
        it.t = "text";
        o = it.a;
        a = it.a;
        t = it.t;
        a[1] = 4;
        new Line("references").add(it.o == it).add(it.a[1]).add(o == it.a).add(t == it.t).print();
        it.o = null;
        t = null;
        new Line("null again").add(it.o == null).add(t).print();
    }

    static void read(int type, Each it) {
        switch (type) {
            case 0: z = it.z; break;
            case 1: b = it.b; break;
            case 2: c = it.c; break;
            case 3: s = it.s; break;
            case 4: i = it.i; break;
            case 5: j = it.j; break;
            case 6: t = it.t; break;
            case 7: o = it.o; break;
            default: a = it.a;
        }
    }

    static void write(int type, Each it) {
        switch (type) {
            case 0: it.z = z; break;
            case 1: it.b = b; break;
            case 2: it.c = c; break;
            case 3: it.s = s; break;
            case 4: it.i = i; break;
            case 5: it.j = j; break;
            case 6: it.t = t; break;
            case 7: it.o = o; break;
            default: it.a = a;
        }
    }

    static void nullReceiver(int type) {
        Line line = new Line("null receiver").add(type);
        try {
            read(type, null);
            line.add("read");
        } catch (NullPointerException e) {
            line.add(e);
        }
        try {
            write(type, null);
            line.add("written");
        } catch (NullPointerException e) {
            line.add(e);
        }
        line.print();
    }

    static int counted() {
        i++;
        return i;
    }

    /** What is stored is computed before the receiver is found to be null. */
    static void faultBehindOperands() {
        Each none = null;
        i = 0;
        try {
            none.i = counted();
        } catch (NullPointerException e) {
            new Line("operands first").add(e).add(i).print();
        }
    }

    static void hiddenFields() {
        Lowest it = new Lowest();
        Upper upper = it;
        Lower lower = it;
        new Line("hidden fields").add(upper.x).add(lower.x).add(it.x).add(it.upperX())
            .add(it.superX()).add(it.superX(1)).add(it.superX(2)).print();
        upper.x = 5;
        lower.x = 6;
        it.x = "seven";
        it.kept++;
        it.behind--;
        new Line("hidden fields set").add(upper.x).add(lower.x).add(it.x).add(upper.kept)
            .add(it.behind).print();
    }

    static void hiddenStatics() {
        Lowest.count = 3;
        Lower.count++;
        Lowest.hidden = 8;
        Upper.hidden = 9;
        new Line("hidden statics").add(Upper.count).add(Lower.hidden).add(Upper.hidden).print();
    }

    static void twoObjects() {
        Each one = new Each();
        Each two = new Each();
        one.j = 1;
        two.j = 2;
        one.o = two;
        ((Each) one.o).i = 3;
        new Line("two objects").add(one.j).add(two.j).add(one.i).add(two.i).print();
    }

    static void compound() {
        Each it = new Each();
        it.b = 127;
        it.b++;
        it.c--;
        it.s += 40000;
        it.i = 2147483647;
        long before = it.i++;
        it.j -= it.i;
        j = it.j--;
        new Line("compound").add(it.b).add(it.c).add(it.s).add(before).add(it.i).add(it.j).add(j)
            .print();
    }
}
