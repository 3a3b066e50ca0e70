/** Exceptions: which handler takes one, what runs before that, and each that the machine makes. */
class Handlers {
    static class High extends RuntimeException {
        High(String message) {
            super(message);
        }
    }

    static class Low extends High {
        final Throwable cause;

        Low(String message, Throwable cause) {
            super(message);
            this.cause = cause;
        }
    }

    static class Checked extends Exception {
    }

    static class Made {
        static Made last;
        int set = 1;

        Made(int divisor) {
            last = this;
            set = 2;
            set = 6 / divisor;
        }
    }

    static int count;

    static void all() {
        for (int which = 0; which < 18; which++) {
            machineMade(which);
        }
        for (int which = 0; which < 6; which++) {
            firstHandler(which);
        }
        for (int which = 0; which < 5; which++) {
            new Line("finally").add(which).add(leaving(which)).add(count).print();
        }
        innerFirst();
        thrownByHandlers();
        passesFrames();
        rethrown();
        inConstructors();
        inLoops();
        overflows();
        chains();
        messages();
    }

    static int fault(int which, int zero, Object none, Object text) throws Throwable {
        int[] numbers = new int[2];
        switch (which) {
            case 0: return 1 / zero;
            case 1: return 1 % zero;
            case 2: return (int) (1L / zero);
            case 3: return (int) (1L % zero);
            case 4: return ((int[]) none).length;
            case 5: return ((Made) none).set;
            case 6: return ((String) none).length();
            case 7: throw (Throwable) none;
            case 8: return numbers[2];
            case 9: return numbers[zero - 1];
            case 10: numbers[2] = 1; return 0;
            case 11: return new int[zero - 1].length;
            case 12: return new int[2][zero - 1].length;
            case 13: return ((Made) text).set;
            case 14: return ((int[]) text).length;
            case 15: ((Object[]) new Made[1])[0] = text; return 0;
            case 16: return ((String) text).charAt(zero - 1);
            default: return ((String) text).charAt(4);
        }
    }

    static void machineMade(int which) {
        Line line = new Line("machine-made").add(which);
        try {
            line.add(fault(which, 0, null, "text"));
        } catch (Throwable e) {
            line.add(e);
        }
        line.print();
    }

    static void raise(int which) throws Exception {
        switch (which) {
            case 0: throw new Low("low", null);
            case 1: throw new High("high");
            case 2: throw new RuntimeException("runtime");
            case 3: throw new Checked();
            case 4: throw new StackOverflowError("by hand");
            default:
        }
    }

    /** The first entry whose class the exception is of, or a class below. */
    static void firstHandler(int which) {
        Line line = new Line("first handler").add(which);
        try {
            raise(which);
            line.add("none");
        } catch (Low e) {
            line.add("Low");
        } catch (High e) {
            line.add("High");
        } catch (RuntimeException e) {
            line.add("RuntimeException");
        } catch (Exception e) {
            line.add("Exception");
        } catch (Error e) {
            line.add("Error");
        } finally {
            line.add("finally");
        }
        line.print();
    }

    /** A result that is computed before `finally` stays, unless `finally` has its own. */
    static int leaving(int which) {
        count = 1;
        try {
            try {
                if (which == 1 || which == 3) {
                    raise(1);
                }
                return count;
            } catch (Exception e) {
                if (which == 3) {
                    throw new High("again");
                }
                return -count;
            } finally {
                count++;
                if (which == 2) {
                    return 100;
                }
            }
        } catch (High e) {
            return 200;
        } finally {
            count *= 10;
            if (which == 4) {
                return 300;
            }
        }
    }

    static void innerFirst() {
        Line line = new Line("inner first");
        try {
            try {
                try {
                    throw new Low("low", null);
                } catch (ArithmeticException e) {
                    line.add("unlike");
                } finally {
                    line.add("innermost");
                }
            } catch (High e) {
                line.add("inner").add(e instanceof Low);
            }
            line.add("behind");
        } catch (Low e) {
            line.add("outer");
        }
        line.print();
    }

    /** What a handler throws isn't for the handlers beside it. */
    static void thrownByHandlers() {
        Line line = new Line("thrown by handlers");
        try {
            try {
                throw new Low("low", null);
            } catch (Low e) {
                throw new High("high");
            } catch (High e) {
                line.add("beside");
            } finally {
                line.add("finally");
            }
        } catch (High e) {
            line.add(e.getMessage());
        }
        try {
            try {
                throw new High("lost");
            } finally {
                count = 1 / (count - count);
            }
        } catch (RuntimeException e) {
            line.add(e);
        }
        line.print();
    }

    static int down(int levels, int zero) {
        if (levels == 0) {
            return 1 / zero;
        }
        try {
            return levels + down(levels - 1, zero);
        } catch (NullPointerException e) {
            return -1;
        } finally {
            count++;
        }
    }

    static void passesFrames() {
        count = 0;
        int kept = 40;
        try {
            kept = kept + down(50, 0);
        } catch (ArithmeticException e) {
            new Line("passes frames").add(e).add(count).add(kept).print();
        }
        new Line("passes none").add(down(50, 1)).add(count).print();
    }

    static void again(RuntimeException e) {
        try {
            throw e;
        } catch (High caught) {
            count++;
            throw caught;
        }
    }

    static void rethrown() {
        High made = new High("made");
        count = 0;
        try {
            again(made);
        } catch (RuntimeException e) {
            new Line("rethrown").add(e == made).add(e.getMessage()).add(count).print();
        }
        try {
            again(null);
        } catch (RuntimeException e) {
            new Line("null thrown").add(e).add(count).print();
        }
    }

    static void inConstructors() {
        Made made = new Made(3);
        Made kept = made;
        try {
            made = new Made(0);
        } catch (ArithmeticException e) {
            new Line("in a constructor").add(made == kept).add(made.set).add(Made.last == kept)
                .add(Made.last.set).print();
        }
    }

    static void inLoops() {
        int caught = 0;
        int ran = 0;
        for (int i = 0; i < 1000; i++) {
            try {
                if (i % 3 == 0) {
                    continue;
                }
                if (i == 900) {
                    break;
                }
                ran += 100 / (i % 5);
            } catch (ArithmeticException e) {
                caught++;
            } finally {
                ran++;
            }
        }
        new Line("in loops").add(caught).add(ran).print();
    }

    static int endless(int depth) {
        count++;
        try {
            return 1 + endless(depth + 1);
        } finally {
            count--;
        }
    }

    /** An endless recursion is caught, twice, and each frame on the way was left. */
    static void overflows() {
        for (int i = 0; i < 2; i++) {
            count = 0;
            try {
                endless(0);
            } catch (StackOverflowError e) {
                new Line("overflow").add(e).add(count).print();
            }
        }
    }

    static void wrap(int levels) {
        try {
            if (levels == 0) {
                throw new High("first");
            }
            wrap(levels - 1);
        } catch (High e) {
            throw new Low("wrapped", e);
        }
    }

    /** Each of 500 frames wraps what the one above it threw. */
    static void chains() {
        try {
            wrap(499);
        } catch (Low e) {
            int links = 0;
            Throwable last = e;
            while (last instanceof Low) {
                last = ((Low) last).cause;
                links++;
            }
            new Line("chain").add(links).add(last.getMessage()).print();
        }
    }

    static void messages() {
        new Line("messages").add(new High("text").getMessage()).add(new High(null).getMessage())
            .add(new Exception().getMessage()).add(new Error("error").getMessage())
            .add(new Throwable("throwable").getMessage()).add(new Throwable().getMessage()).print();
    }
}
