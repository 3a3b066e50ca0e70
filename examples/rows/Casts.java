/** Exceptions of the machine's own, each caught: which class each has. */
class Casts {
    static int fault(int which) {
        Object[] texts = new String[1];
        int[] numbers = new int[2];
        try {
            switch (which) {
                case 0:
                    return numbers[2];
                case 1:
                    texts[0] = numbers;
                    return 0;
                case 2:
                    return ((String) (Object) numbers).length();
                case 3:
                    return new int[-1].length;
                case 4:
                    numbers = null;
                    return numbers.length;
                case 5:
                    return "ab".charAt(2);
                default:
                    return 7;
            }
        } catch (ArrayIndexOutOfBoundsException e) {
            return 10;
        } catch (ArrayStoreException e) {
            return 11;
        } catch (ClassCastException e) {
            return 12;
        } catch (NegativeArraySizeException e) {
            return 13;
        } catch (NullPointerException e) {
            return 14;
        } catch (StringIndexOutOfBoundsException e) {
            return 15;
        } finally {
            System.out.print(which);
            System.out.print(' ');
        }
    }

    public static void main(String[] args) {
        for (int i = 0; i < 7; i++) {
            System.out.println(fault(i));
        }
    }
}
