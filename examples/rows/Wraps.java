/** Each of 900 frames wraps what the one above it threw: caught at the bottom, and then not. */
class Wraps extends RuntimeException {
    final Wraps wrapped;

    Wraps(Wraps wrapped) {
        this.wrapped = wrapped;
    }

    static void wrap(int frames) {
        try {
            if (frames > 0) {
                wrap(frames - 1);
            }
            throw new Wraps(null);
        } catch (Wraps e) {
            throw new Wraps(e);
        }
    }

    public static void main(String[] args) {
        try {
            wrap(899);
        } catch (Wraps e) {
            int links = 0;
            for (Wraps last = e.wrapped; last != null; last = last.wrapped) {
                links++;
            }
            System.out.println(links);
        }
        wrap(899);
    }
}
