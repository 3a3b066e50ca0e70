/** Arrays: sizes and indices at their bounds, arrays of arrays, stores that are refused, casts. */
class Arrays {
    interface Shape {
    }

    static class Square implements Shape {
    }

    static class Small extends Square {
    }

    static void all() {
        for (int kind = 0; kind < Elements.KINDS; kind++) {
            sizes(kind);
            loads(kind);
            stores(kind);
            values(kind);
        }
        manyDimensions();
        allDimensions();
        storedClasses();
        faultsInOrder();
        classes();
        sharing();
    }

    static void size(Line line, int kind, int length) {
        try {
            line.add(Elements.length(kind, Elements.make(kind, length)));
        } catch (RuntimeException e) {
            line.add(e);
        }
    }

    static void sizes(int kind) {
        Line line = new Line("sizes").add(Elements.name(kind));
        size(line, kind, 0);
        size(line, kind, 1);
        size(line, kind, 1000);
        size(line, kind, -1);
        size(line, kind, -2147483648);
        try {
            line.add(Elements.length(kind, null));
        } catch (RuntimeException e) {
            line.add(e);
        }
        line.print();
    }

    static void load(Line line, int kind, Object array, int index) {
        try {
            line.add(Elements.load(kind, array, index));
        } catch (RuntimeException e) {
            line.add(e);
        }
    }

    static void loads(int kind) {
        Line line = new Line("loads").add(Elements.name(kind));
        Object array = Elements.make(kind, 3);
        load(line, kind, array, -2147483648);
        load(line, kind, array, -1);
        load(line, kind, array, 0);
        load(line, kind, array, 2);
        load(line, kind, array, 3);
        load(line, kind, array, 2147483647);
        load(line, kind, Elements.make(kind, 0), 0);
        load(line, kind, null, 0);
        line.print();
    }

    static void store(Line line, int kind, Object array, int index) {
        try {
            Elements.store(kind, array, index, 1);
            line.add(Elements.load(kind, array, index));
        } catch (RuntimeException e) {
            line.add(e);
        }
    }

    static void stores(int kind) {
        Line line = new Line("stores").add(Elements.name(kind));
        Object array = Elements.make(kind, 3);
        store(line, kind, array, -2147483648);
        store(line, kind, array, -1);
        store(line, kind, array, 0);
        store(line, kind, array, 2);
        store(line, kind, array, 3);
        store(line, kind, array, 2147483647);
        load(line, kind, array, 1);
        store(line, kind, Elements.make(kind, 0), 0);
        store(line, kind, null, 0);
        line.print();
    }

    static void values(int kind) {
        Line line = new Line("values").add(Elements.name(kind));
        Object array = Elements.make(kind, 1);
        long[] values = {0, -1, 127, 128, -129, 255, 256, 32767, 32768, 65535, 65536, 2147483647,
            2147483648L, 9223372036854775807L, -9223372036854775808L};
        for (int i = 0; i < values.length; i++) {
            Elements.store(kind, array, 0, values[i]);
            line.add(Elements.load(kind, array, 0));
        }
        line.print();
    }

    /** The sizes of an array and of its parts, in brackets; a null part is a dash. */
    static void shape(StringBuffer text, Object array) {
        if (array instanceof Object[]) {
            Object[] parts = (Object[]) array;
            text.append('[');
            for (int i = 0; i < parts.length; i++) {
                shape(text, parts[i]);
            }
            text.append(']');
        } else if (array instanceof int[]) {
            text.append(((int[]) array).length);
        } else {
            text.append(array == null ? "-" : "?");
        }
    }

    static Object many(int which, int size) {
        switch (which) {
            case 0: return new int[2][size];
            case 1: return new int[size][2];
            case 2: return new int[2][size][];
            case 3: return new int[2][size][3];
            case 4: return new int[size][1][1][1];
            case 5: return new String[size][2];
            case 6: return new long[1][size];
            default: return new int[0][size];
        }
    }

    static void manyDimensions() {
        for (int which = 0; which < 8; which++) {
            for (int size = -1; size < 3; size++) {
                Line line = new Line("dimensions").add(which).add(size);
                try {
                    StringBuffer text = new StringBuffer();
                    shape(text, many(which, size));
                    line.add(text.toString());
                } catch (RuntimeException e) {
                    line.add(e);
                }
                line.print();
            }
        }
    }

    /** An array of as many dimensions as there may be. */
    static void allDimensions() {
        Object array = new int
            [1][1][1][1][1][1][1][1][1][1][1][1][1][1][1][1][1][1][1][1][1][1][1][1][1][1][1][1][1][1]
            [1][1][1][1][1][1][1][1][1][1][1][1][1][1][1][1][1][1][1][1][1][1][1][1][1][1][1][1][1][1]
            [1][1][1][1][1][1][1][1][1][1][1][1][1][1][1][1][1][1][1][1][1][1][1][1][1][1][1][1][1][1]
            [1][1][1][1][1][1][1][1][1][1][1][1][1][1][1][1][1][1][1][1][1][1][1][1][1][1][1][1][1][1]
            [1][1][1][1][1][1][1][1][1][1][1][1][1][1][1][1][1][1][1][1][1][1][1][1][1][1][1][1][1][1]
            [1][1][1][1][1][1][1][1][1][1][1][1][1][1][1][1][1][1][1][1][1][1][1][1][1][1][1][1][1][1]
            [1][1][1][1][1][1][1][1][1][1][1][1][1][1][1][1][1][1][1][1][1][1][1][1][1][1][1][1][1][1]
            [1][1][1][1][1][1][1][1][1][1][1][1][1][1][1][1][1][1][1][1][1][1][1][1][1][1][1][1][1][1]
            [1][1][1][1][1][1][1][1][1][1][1][1][1][1][7];
        int depth = 0;
        while (array instanceof Object[]) {
            array = ((Object[]) array)[0];
            depth++;
        }
        new Line("all dimensions").add(depth).add(((int[]) array).length).print();
    }

    static Object[] taking(int which) {
        switch (which) {
            case 0: return new Object[1];
            case 1: return new String[1];
            case 2: return new Shape[1];
            case 3: return new Square[1];
            case 4: return new int[1][];
            case 5: return new Object[1][];
            default: return new Shape[1][];
        }
    }

    static Object taken(int which) {
        switch (which) {
            case 0: return null;
            case 1: return "text";
            case 2: return new Object();
            case 3: return new Square();
            case 4: return new Small();
            case 5: return new int[1];
            case 6: return new String[1];
            case 7: return new Small[1];
            default: return new int[1][1];
        }
    }

    static void storedClasses() {
        for (int which = 0; which < 7; which++) {
            Line line = new Line("stored classes").add(which);
            for (int value = 0; value < 9; value++) {
                Object[] array = taking(which);
                Object stored = taken(value);
                try {
                    array[0] = stored;
                    line.add(array[0] == stored);
                } catch (RuntimeException e) {
                    line.add(e).add(array[0] == null);
                }
            }
            line.print();
        }
    }

    static void put(Line line, Object[] array, int index, Object value) {
        try {
            array[index] = value;
            line.add("stored");
        } catch (RuntimeException e) {
            line.add(e);
        }
    }

    /** Null comes before the index, and the index before the class. */
    static void faultsInOrder() {
        Line line = new Line("faults in order");
        put(line, null, -1, "text");
        put(line, new Square[1], 1, "text");
        put(line, new Square[1], -1, "text");
        put(line, new Square[0], 0, "text");
        put(line, new Square[1], 0, "text");
        put(line, new Square[1], 0, null);
        line.print();
    }

    static Object cast(int type, Object value) {
        switch (type) {
            case 0: return (Object[]) value;
            case 1: return (String[]) value;
            case 2: return (Shape[]) value;
            case 3: return (int[]) value;
            case 4: return (long[]) value;
            case 5: return (int[][]) value;
            case 6: return (Object[][]) value;
            case 7: return (Shape) value;
            default: return (Small) value;
        }
    }

    static boolean isOf(int type, Object value) {
        switch (type) {
            case 0: return value instanceof Object[];
            case 1: return value instanceof String[];
            case 2: return value instanceof Shape[];
            case 3: return value instanceof int[];
            case 4: return value instanceof long[];
            case 5: return value instanceof int[][];
            case 6: return value instanceof Object[][];
            case 7: return value instanceof Shape;
            default: return value instanceof Small;
        }
    }

    /** Each value by each type: as instanceof tells, and whether the cast goes through. */
    static void classes() {
        for (int which = 0; which < 9; which++) {
            Line line = new Line("classes").add(which);
            Object value = taken(which);
            for (int type = 0; type < 9; type++) {
                line.add(isOf(type, value));
                try {
                    line.add(cast(type, value) == value);
                } catch (RuntimeException e) {
                    line.add(e);
                }
            }
            line.print();
        }
    }

    static void sharing() {
        int[][] rows = new int[3][2];
        rows[0][1] = 5;
        int[] row = rows[2];
        rows[2] = rows[0];
        row[1] = 7;
        Object[] same = rows;
        new Line("sharing").add(rows[1][1]).add(rows[2][1]).add(row[1]).add(rows[0] == rows[2])
            .add(rows[0] == rows[1]).add(same == (Object) rows).add(same[2] == rows[0]).print();
    }
}
