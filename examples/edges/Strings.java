/** Strings and buffers: appends of each type, bounds, equality, literals that are one object. */
class Strings {
    static final String TEXT = "text";

    static class Other {
        static String literal() {
            return "text";
        }
    }

    static void all() {
        appends();
        buffers();
        lengths();
        characters();
        equality();
        literals();
        values();
        nulls();
        new Line("grown").add(grown(1000).length()).print();
        prints();
    }

    static void appends() {
        StringBuffer text = new StringBuffer("appends:");
        text.append(' ').append(0).append(' ').append(2147483647).append(' ').append(-2147483648);
        text.append(' ').append(0L).append(' ').append(9223372036854775807L);
        text.append(' ').append(-9223372036854775808L).append(' ').append(true).append(' ');
        text.append(false).append(' ').append("").append((String) null).append('\u00e9');
        text.append('\u20ac').append((char) 97);
        System.out.println(text.toString());
    }

    static void buffers() {
        StringBuffer buffer = new StringBuffer();
        int empty = buffer.length();
        StringBuffer same = buffer.append("ab");
        String first = buffer.toString();
        String again = buffer.toString();
        buffer.append(first).append(buffer.toString());
        new Line("buffers").add(empty).add(same == buffer).add(first).add(first == again)
            .add(first.equals(again)).add(buffer.toString()).add(buffer.length()).print();
    }

    static void lengths() {
        new Line("lengths").add("".length()).add("a".length()).add("\u00e9\u20ac".length())
            .add("\ud83d\ude00".length()).add("a\0b".length())
            .add(new StringBuffer("\u20ac").append(1234L).append(false).length()).print();
    }

    static void at(Line line, String text, int index) {
        try {
            line.add(text.charAt(index));
        } catch (RuntimeException e) {
            line.add(e);
        }
    }

    static void characters() {
        Line line = new Line("characters");
        at(line, "", 0);
        at(line, "ab", -1);
        at(line, "ab", 0);
        at(line, "ab", 1);
        at(line, "ab", 2);
        at(line, "ab", 2147483647);
        at(line, "ab", -2147483648);
        at(line, "\0\u007f\u0080\u07ff\u0800\uffff", 0);
        at(line, "\0\u007f\u0080\u07ff\u0800\uffff", 1);
        at(line, "\0\u007f\u0080\u07ff\u0800\uffff", 2);
        at(line, "\0\u007f\u0080\u07ff\u0800\uffff", 3);
        at(line, "\0\u007f\u0080\u07ff\u0800\uffff", 4);
        at(line, "\0\u007f\u0080\u07ff\u0800\uffff", 5);
        at(line, "\ud83d\ude00", 0);
        at(line, null, 0);
        line.print();
    }

    static void equality() {
        String made = "te".concat("xt");
        new Line("equality").add(made.equals(TEXT)).add(TEXT.equals(made)).add(made == TEXT)
            .add(TEXT.equals(TEXT)).add(TEXT.equals(null)).add(TEXT.equals("Text"))
            .add(TEXT.equals("tex")).add(TEXT.equals("texts")).add("".equals(""))
            .add(TEXT.equals(new Object())).add(TEXT.equals(new StringBuffer("text")))
            .add(TEXT.equals(new int[4])).add("\u00e9".equals("e")).print();
    }

    static void literals() {
        String folded = "te" + "xt";
        Object object = "text";
        new Line("literals").add("text" == TEXT).add(Other.literal() == TEXT).add(folded == TEXT)
            .add(object == TEXT).add("text" == "Text").add(String.valueOf(1) == "1").print();
    }

    static void values() {
        new Line("values").add(String.valueOf(0)).add(String.valueOf(-1))
            .add(String.valueOf(2147483647)).add(String.valueOf(-2147483648))
            .add(String.valueOf(9223372036854775807L)).add(String.valueOf(-9223372036854775808L))
            .add("".concat("")).add("a".concat("")).add("".concat("b")).add("a".concat("b"))
            .print();
    }

    static int onNull(int which) {
        String none = null;
        StringBuffer buffer = null;
        switch (which) {
            case 0: return none.length();
            case 1: return none.equals(null) ? 1 : 0;
            case 2: return none.concat("a").length();
            case 3: return "a".concat(null).length();
            case 4: return new StringBuffer(none).length();
            case 5: return buffer.append(1).length();
            case 6: return buffer.toString().length();
            default: return new StringBuffer("a").append(none).length();
        }
    }

    static void nulls() {
        Line line = new Line("nulls");
        for (int which = 0; which < 8; which++) {
            try {
                line.add(onNull(which));
            } catch (RuntimeException e) {
                line.add(e);
            }
        }
        line.print();
    }

    static String grown(int length) {
        StringBuffer text = new StringBuffer();
        while (text.length() < length) {
            text.append(text.length() % 10);
        }
        return text.toString();
    }

    static void prints() {
        System.out.print("prints:");
        System.out.print(' ');
        System.out.print(-2147483648);
        System.out.print('\u20ac');
        System.out.print(-9223372036854775808L);
        System.out.print(true);
        System.out.print((String) null);
        System.out.println();
        System.out.println(2147483647);
        System.out.println(9223372036854775807L);
        System.out.println('\u00e9');
        System.out.println(false);
        System.out.println((String) null);
        System.out.println("");
    }
}
