/**
 * Classes that changed after this one was compiled: those of the folder after/ take the place of
 * the ones here.
 */
class Versions {
    interface Sized {
        int size();
    }

    static class Part extends Gone {
    }

    static class Member extends Lost implements Sized {
    }

    static class Closed extends Narrowed implements Sized {
    }

    static class Guarded extends Protected implements Sized {
    }

    static class Rest extends Half {
    }

    static class Bottom extends Middle {
        String name() {
            return "bottom over ".concat(super.name());
        }
    }

    static void all() {
        for (int which = 0; which < 6; which++) {
            Line line = new Line("changed class").add(which);
            try {
                line.add(call(which));
            } catch (IncompatibleClassChangeError e) {
                line.add(e);
            }
            line.print();
        }
        addedMembers();
        constants();
    }

    static int call(int which) {
        switch (which) {
            case 0: return new Part().size();
            case 1: return sized(new Member());
            case 2: return sized(new Closed());
            case 3: return sized(new Guarded());
            case 4: return sized(new Unlisted());
            default: return new Rest().size();
        }
    }

    static int sized(Sized it) {
        return it.size();
    }

    static void addedMembers() {
        Bottom it = new Bottom();
        new Line("added members").add(it.name()).add(it.mark).add(((Top) it).mark).print();
    }

    /** Each static's first value is its constant. */
    static void constants() {
        new Line("constants").add(Constants.TRUTH).add(Constants.BYTE).add(Constants.CHAR)
            .add(Constants.SHORT).add(Constants.INT).add(Constants.LONG).add(Constants.TEXT)
            .add(Constants.TEXT == "constant").add(Constants.NONE).print();
        new Line("interface constants").add(Limits.TRUTH).add(Limits.BYTE).add(Limits.CHAR)
            .add(Limits.SHORT).add(Limits.INT).add(Limits.LONG).add(Limits.TEXT)
            .add(Limits.TEXT == "limit").print();
        new Line("inherited constants").add(Bounded.BYTE).add(Bounded.LEAST).print();
    }
}
